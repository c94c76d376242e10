//! Writes the five tables of the Star Schema Benchmark as text files, for measuring.
//!
//! `tables SCALE SEED FOLDER`: at scale 1 there are 30,000 customers, 2,000 suppliers, 200,000 parts, the 2,556 days from 1992
//! to 1998 and 1,500,000 orders of one to seven lines. The same words give the same bytes. Domains and formulas are the
//! benchmark's; the random numbers are our own, so rows differ from those of its generator. Columns that `eval` does not
//! keep have texts of about the usual length.

use std::error::Error;
use std::fs::{create_dir_all, File};
use std::io::{BufWriter, Write};
use std::path::Path;

type Outcome = Result<(), Box<dyn Error>>;

/// SplitMix64 (Steele, Lea, Flood 2014).
struct Random(u64);

impl Random {
    fn next(&mut self) -> u64 {
        self.0 = self.0.wrapping_add(0x9E37_79B9_7F4A_7C15);
        let x = (self.0 ^ (self.0 >> 30)).wrapping_mul(0xBF58_476D_1CE4_E5B9);
        let x = (x ^ (x >> 27)).wrapping_mul(0x94D0_49BB_1331_11EB);
        x ^ (x >> 31)
    }

    /// A number from `low` to `high`, both included.
    fn between(&mut self, low: u64, high: u64) -> u64 {
        low + self.next() % (high - low + 1)
    }

    fn one_of<'a>(&mut self, texts: &[&'a str]) -> &'a str {
        texts[self.between(0, texts.len() as u64 - 1) as usize]
    }
}

/// Five nations of each region.
const REGIONS: [(&str, [&str; 5]); 5] = [
    ("AFRICA", ["ALGERIA", "ETHIOPIA", "KENYA", "MOROCCO", "MOZAMBIQUE"]),
    ("AMERICA", ["ARGENTINA", "BRAZIL", "CANADA", "PERU", "UNITED STATES"]),
    ("ASIA", ["CHINA", "INDIA", "INDONESIA", "JAPAN", "VIETNAM"]),
    ("EUROPE", ["FRANCE", "GERMANY", "ROMANIA", "RUSSIA", "UNITED KINGDOM"]),
    ("MIDDLE EAST", ["EGYPT", "IRAN", "IRAQ", "JORDAN", "SAUDI ARABIA"]),
];

/// The months, each with its days in a year that is no leap year.
const MONTHS: [(&str, u32); 12] = [
    ("January", 31), ("February", 28), ("March", 31), ("April", 30), ("May", 31), ("June", 30),
    ("July", 31), ("August", 31), ("September", 30), ("October", 31), ("November", 30), ("December", 31),
];

const WEEKDAYS: [&str; 7] =
    ["Sunday", "Monday", "Tuesday", "Wednesday", "Thursday", "Friday", "Saturday"];

const PRIORITIES: [&str; 5] = ["1-URGENT", "2-HIGH", "3-MEDIUM", "4-NOT SPECI", "5-LOW"];

const MODES: [&str; 7] = ["AIR", "FOB", "MAIL", "RAIL", "REG AIR", "SHIP", "TRUCK"];

/// City, nation and region: a city is nine letters of its nation, with blanks after them, and a digit.
fn place(random: &mut Random) -> String {
    let (region, nations) = REGIONS[random.between(0, 4) as usize];
    let nation = random.one_of(&nations);
    format!("{:<9.9}{}|{nation}|{region}", nation, random.between(0, 9))
}

fn phone(random: &mut Random) -> String {
    let mut part = |low, high| random.between(low, high);
    format!("{}-{}-{}-{}", part(10, 34), part(100, 999), part(100, 999), part(1000, 9999))
}

/// A price in hundredths, by the formula of the benchmark.
fn price(part: u64) -> u64 {
    90_000 + (part / 10) % 20_001 + 100 * (part % 1_000)
}

/// The keys of all days, each with its line of the table.
fn days() -> Vec<(u32, String)> {
    let mut days = Vec::new();
    for year in 1992..=1998 {
        let mut of_year = 0;
        for (month, (name, length)) in (1..).zip(MONTHS) {
            let length = if month == 2 && year % 4 == 0 { 29 } else { length };
            for day in 1..=length {
                of_year += 1;
                let key = year * 10_000 + month * 100 + day;
                let weekday = (days.len() + 3) % 7;
                let short = &name[..3];
                let week = (of_year + 6) / 7;
                let line = format!(
                    "{key}|{name} {day}, {year}|{}|{name}|{year}|{year}{month:02}|{short}{year}|{}|{day}|{of_year}|{month}|{week}|Season|0|0|0|1|",
                    WEEKDAYS[weekday], weekday + 1,
                );
                days.push((key, line));
            }
        }
    }
    days.truncate(2_556);
    days
}

fn table(folder: &Path, name: &str) -> std::io::Result<BufWriter<File>> {
    Ok(BufWriter::with_capacity(1 << 20, File::create(folder.join(name))?))
}

fn scaled(scale: f64, count: f64) -> u64 {
    ((scale * count) as u64).max(1)
}

fn main() -> Outcome {
    let words: Vec<String> = std::env::args().collect();
    let [_, scale, seed, folder] = words.as_slice() else {
        return Err("the words are SCALE SEED FOLDER".into());
    };
    let (scale, seed, folder): (f64, u64, &Path) = (scale.parse()?, seed.parse()?, folder.as_ref());
    create_dir_all(folder)?;
    let customers = scaled(scale, 30_000.0);
    let suppliers = scaled(scale, 2_000.0);
    let parts = if scale < 1.0 { scaled(scale, 200_000.0) } else { 200_000 * (1 + scale.log2() as u64) };
    let days = days();

    let random = &mut Random(seed);
    let mut out = table(folder, "customer.tbl")?;
    for key in 1..=customers {
        let (place, phone) = (place(random), phone(random));
        writeln!(out, "{key}|Customer#{key:09}|some street {key}|{place}|{phone}|BUILDING|")?;
    }
    out.flush()?;
    let mut out = table(folder, "supplier.tbl")?;
    for key in 1..=suppliers {
        let (place, phone) = (place(random), phone(random));
        writeln!(out, "{key}|Supplier#{key:09}|some street {key}|{place}|{phone}|")?;
    }
    out.flush()?;
    let mut out = table(folder, "part.tbl")?;
    for key in 1..=parts {
        let maker = random.between(1, 5);
        let category = maker * 10 + random.between(1, 5);
        let brand = random.between(1, 40);
        writeln!(out, "{key}|lace spring|MFGR#{maker}|MFGR#{category}|MFGR#{category}{brand}|green|PROMO BURNISHED TIN|{}|JUMBO PKG|", random.between(1, 50))?;
    }
    out.flush()?;
    let mut out = table(folder, "date.tbl")?;
    for (_, line) in &days {
        writeln!(out, "{line}")?;
    }
    out.flush()?;
    orders(random, scaled(scale, 1_500_000.0), [customers, suppliers, parts], &days, table(folder, "lineorder.tbl")?)
}

/// The lines of all orders. An order has one customer, day and priority.
fn orders(random: &mut Random, count: u64, [customers, suppliers, parts]: [u64; 3], days: &[(u32, String)], mut out: BufWriter<File>) -> Outcome {
    for order in 1..=count {
        let customer = random.between(1, customers);
        let day = random.between(0, days.len() as u64 - 152) as usize;
        let priority = random.one_of(&PRIORITIES);
        for line in 1..=random.between(1, 7) {
            let part = random.between(1, parts);
            let supplier = random.between(1, suppliers);
            let (quantity, discount) = (random.between(1, 50), random.between(0, 10));
            let (one, tax) = (price(part), random.between(0, 8));
            let whole = quantity * one;
            let commit = days[day + random.between(30, 90) as usize].0;
            writeln!(
                out,
                "{order}|{line}|{customer}|{part}|{supplier}|{}|{priority}|0|{quantity}|{whole}|{}|{discount}|{}|{}|{tax}|{commit}|{}|",
                days[day].0, whole + whole / 20, whole * (100 - discount) / 100, one * 6 / 10, random.one_of(&MODES),
            )?;
        }
    }
    Ok(out.flush()?)
}
