//! Queries 1.1, 2.1, 3.1 and 4.1 of the Star Schema Benchmark as one writes them by hand: the tables are read into memory, and the
//! facts are scanned. It prints the reports that `ssbcube eval` prints, and checks nothing but that numbers are numbers.
//!
//! `plain FOLDER QUERY`

use std::collections::{BTreeMap, HashMap};
use std::error::Error;
use std::fs::{self, File};
use std::hash::{BuildHasherDefault, Hasher};
use std::io::{BufRead, BufReader};
use std::path::Path;

type Outcome<T> = Result<T, Box<dyn Error>>;

/// A number is its own hash, times an odd constant.
#[derive(Default)]
struct Times(u64);

impl Hasher for Times {
    fn finish(&self) -> u64 {
        self.0
    }

    fn write(&mut self, _: &[u8]) {
        unreachable!("only numbers are hashed")
    }

    fn write_u32(&mut self, number: u32) {
        self.0 = u64::from(number).wrapping_mul(0x9E37_79B9_7F4A_7C15).rotate_left(32);
    }
}

/// A dimension: the place of each key, and the kept columns of each row.
struct Dimension {
    places: HashMap<u32, u32, BuildHasherDefault<Times>>,
    rows: Vec<Vec<String>>,
}

/// Reads a table, of which some columns are kept.
fn dimension(folder: &Path, name: &str, kept: &[usize]) -> Outcome<Dimension> {
    let text = fs::read_to_string(folder.join(name))?;
    let (mut places, mut rows) = (HashMap::default(), Vec::new());
    for line in text.lines() {
        let fields: Vec<&str> = line.split('|').collect();
        places.insert(fields[0].parse()?, rows.len() as u32);
        rows.push(kept.iter().map(|place| fields[*place].to_string()).collect());
    }
    Ok(Dimension { places, rows })
}

/// A fact row, as far as the four queries look at it. Its keys are places in the dimensions.
struct Fact {
    customer: u32,
    supplier: u32,
    part: u32,
    date: u32,
    quantity: u8,
    discount: u8,
    price: u32,
    revenue: u32,
    cost: u32,
}

struct Star {
    customer: Dimension,
    supplier: Dimension,
    part: Dimension,
    date: Dimension,
    facts: Vec<Fact>,
}

/// The fields of a line. Those that it lacks are empty.
fn fields(line: &[u8]) -> [&[u8]; 17] {
    let mut fields = [&line[..0]; 17];
    let mut start = 0;
    for field in &mut fields {
        let Some(length) = line[start..].iter().position(|byte| *byte == b'|') else { break };
        *field = &line[start..start + length];
        start += length + 1;
    }
    fields
}

fn number(field: &[u8]) -> Outcome<u32> {
    let mut number = 0u32;
    for byte in field {
        if !byte.is_ascii_digit() {
            return Err("a field is no number".into());
        }
        number = number * 10 + u32::from(byte - b'0');
    }
    Ok(number)
}

fn star(folder: &Path) -> Outcome<Star> {
    let customer = dimension(folder, "customer.tbl", &[3, 4, 5])?;
    let supplier = dimension(folder, "supplier.tbl", &[3, 4, 5])?;
    let part = dimension(folder, "part.tbl", &[2, 3, 4])?;
    let date = dimension(folder, "date.tbl", &[4])?;
    let mut facts = Vec::new();
    let mut reader = BufReader::with_capacity(1 << 20, File::open(folder.join("lineorder.tbl"))?);
    let mut line = Vec::new();
    while reader.read_until(b'\n', &mut line)? > 0 {
        let fields = fields(&line);
        facts.push(Fact {
            customer: customer.places[&number(fields[2])?],
            part: part.places[&number(fields[3])?],
            supplier: supplier.places[&number(fields[4])?],
            date: date.places[&number(fields[5])?],
            quantity: number(fields[8])? as u8,
            discount: number(fields[11])? as u8,
            price: number(fields[9])?,
            revenue: number(fields[12])?,
            cost: number(fields[13])?,
        });
        line.clear();
    }
    Ok(Star { customer, supplier, part, date, facts })
}

impl Star {
    fn year(&self, fact: &Fact) -> &str {
        &self.date.rows[fact.date as usize][0]
    }

    /// The sum of extended price times discount over few pieces of 1993.
    fn first(&self) -> String {
        let (mut rows, mut sum) = (0, 0);
        for fact in &self.facts {
            if (1..=3).contains(&fact.discount) && fact.quantity <= 24 && self.year(fact) == "1993" {
                (rows, sum) = (1, sum + i64::from(fact.price) * i64::from(fact.discount));
            }
        }
        let line = if rows == 1 { format!("{sum}\n") } else { String::new() };
        format!("sum(discounted)\n{line}rows {rows}\n")
    }

    /// Revenue by year and brand of a category, from American suppliers.
    fn second(&self) -> String {
        let mut groups: BTreeMap<(&str, &str), i64> = BTreeMap::new();
        for fact in &self.facts {
            let part = &self.part.rows[fact.part as usize];
            if part[1] == "MFGR#12" && self.supplier.rows[fact.supplier as usize][2] == "AMERICA" {
                *groups.entry((self.year(fact), &part[2])).or_default() += i64::from(fact.revenue);
            }
        }
        let lines: String = groups.iter().map(|((year, brand), sum)| format!("{year}|{brand}|{sum}\n")).collect();
        format!("d_year|p_brand1|sum(revenue)\n{lines}rows {}\n", groups.len())
    }

    /// Revenue within Asia by nations and year, in order by year and descending revenue.
    fn third(&self) -> String {
        let mut groups: BTreeMap<(&str, &str, &str), i64> = BTreeMap::new();
        for fact in &self.facts {
            let (from, to) = (&self.customer.rows[fact.customer as usize], &self.supplier.rows[fact.supplier as usize]);
            let year = self.year(fact);
            if from[2] == "ASIA" && to[2] == "ASIA" && ("1992"..="1997").contains(&year) {
                *groups.entry((&from[1], &to[1], year)).or_default() += i64::from(fact.revenue);
            }
        }
        let mut sorted: Vec<_> = groups.into_iter().collect();
        sorted.sort_by_key(|((_, _, year), sum)| (*year, -sum));
        let lines: String = sorted.iter().map(|((from, to, year), sum)| format!("{from}|{to}|{year}|{sum}\n")).collect();
        format!("c_nation|s_nation|d_year|sum(revenue)\n{lines}rows {}\n", sorted.len())
    }

    /// Profit within America by year and nation of the customer, of the parts of two manufacturers.
    fn fourth(&self) -> String {
        let mut groups: BTreeMap<(&str, &str), i64> = BTreeMap::new();
        for fact in &self.facts {
            let (from, to) = (&self.customer.rows[fact.customer as usize], &self.supplier.rows[fact.supplier as usize]);
            let maker = self.part.rows[fact.part as usize][0].as_str();
            if from[2] == "AMERICA" && to[2] == "AMERICA" && (maker == "MFGR#1" || maker == "MFGR#2") {
                *groups.entry((self.year(fact), &from[1])).or_default() += i64::from(fact.revenue) - i64::from(fact.cost);
            }
        }
        let lines: String = groups.iter().map(|((year, from), sum)| format!("{year}|{from}|{sum}\n")).collect();
        format!("d_year|c_nation|sum(profit)\n{lines}rows {}\n", groups.len())
    }
}

fn main() -> Outcome<()> {
    let words: Vec<String> = std::env::args().collect();
    let [_, folder, query] = words.as_slice() else {
        return Err("the words are FOLDER QUERY".into());
    };
    let star = star(folder.as_ref())?;
    print!("{}", match query.as_str() {
        "1.1" => star.first(),
        "2.1" => star.second(),
        "3.1" => star.third(),
        "4.1" => star.fourth(),
        _ => return Err("the queries are 1.1, 2.1, 3.1 and 4.1".into()),
    });
    Ok(())
}
