//! What a session costs a plain Rust program: one ordered map a table, the open transactions with their own
//! writes, and the locks on rows. It reads the lines of `database`, `table`, `begin`, `insert`, `commit`, `abort` and
//! `rows` by the forms of their words, and prints the same replies as `slonrun`. It keeps nothing in a store, counts no
//! calls and never goes down. With `--put N` it reads no session: it makes the keys and values of N rows and puts them
//! into one ordered map, and with `--make N` it makes them and puts none.
use std::collections::{BTreeMap, HashMap};
use std::env;
use std::fmt::{self, Display, Formatter};
use std::fs::File;
use std::io::{self, BufRead, BufReader, BufWriter, Write};
use std::process::ExitCode;

const DATABASE_LIMIT: usize = 16;
const LINE_LIMIT: usize = 8_192;
const COLUMN_LIMIT: usize = 16;

/// The rows that stand and the transaction that holds the lock of each row that an open one wrote.
#[derive(Default)]
struct Table {
    columns: usize,
    rows: BTreeMap<String, Vec<String>>,
    locks: HashMap<String, u64>,
}

/// What an open transaction wrote: for each table the rows that its commit adds.
struct Transaction {
    xid: u64,
    actions: u64,
    writes: BTreeMap<(String, String), Vec<String>>,
}

#[derive(Default)]
struct Database {
    tables: BTreeMap<String, Table>,
    transactions: HashMap<String, Transaction>,
    last_xid: u64,
    last_action: u64,
}

/// Why a line did not do its work.
enum Stop {
    /// It is no command.
    BadLine,
    Refused(Refused),
}

impl From<Refused> for Stop {
    fn from(refused: Refused) -> Self {
        Stop::Refused(refused)
    }
}

enum Refused {
    Full,
    NoDatabase(String),
    TableExists(String),
    NameUsed(String),
    NoTable(String),
    NoTransaction(String),
    Locked(u64),
    Duplicate,
    BadWidth(usize),
}

fn is_name(word: &str) -> bool {
    (1..=31).contains(&word.len())
        && word
            .bytes()
            .all(|b| b.is_ascii_alphanumeric() || b"_-.".contains(&b))
}

fn is_part(word: &str) -> bool {
    let first = |b: u8| b.is_ascii_lowercase() || b == b'_';
    (1..=31).contains(&word.len())
        && first(word.as_bytes()[0])
        && word.bytes().all(|b| first(b) || b.is_ascii_digit())
}

fn is_table_name(word: &str) -> bool {
    word.split_once('.')
        .is_some_and(|(space, name)| is_part(space) && is_part(name))
}

fn is_value(word: &str) -> bool {
    (1..=64).contains(&word.len())
        && word
            .bytes()
            .all(|b| b.is_ascii_alphanumeric() || b"_.-+/:@".contains(&b))
}

/// The word, where it has the form.
fn form(word: &str, has_form: fn(&str) -> bool) -> Result<&str, Stop> {
    if has_form(word) {
        Ok(word)
    } else {
        Err(Stop::BadLine)
    }
}

fn columns_of(word: &str) -> Result<usize, Stop> {
    let is_plain = word.bytes().all(|b| b.is_ascii_digit()) && !word.starts_with('0');
    let columns = word.parse().map_err(|_| Stop::BadLine)?;
    if is_plain && (1..=COLUMN_LIMIT).contains(&columns) {
        Ok(columns)
    } else {
        Err(Stop::BadLine)
    }
}

impl Database {
    fn make_table(&mut self, table: &str, columns: usize) -> Result<(), Refused> {
        if self.tables.contains_key(table) {
            return Err(Refused::TableExists(table.to_owned()));
        }
        let made = Table {
            columns,
            ..Table::default()
        };
        self.tables.insert(table.to_owned(), made);
        Ok(())
    }

    fn begin(&mut self, name: &str) -> Result<u64, Refused> {
        if self.transactions.contains_key(name) {
            return Err(Refused::NameUsed(name.to_owned()));
        }
        self.last_xid += 1;
        let opened = Transaction {
            xid: self.last_xid,
            actions: 0,
            writes: BTreeMap::new(),
        };
        self.transactions.insert(name.to_owned(), opened);
        Ok(self.last_xid)
    }

    fn insert(
        &mut self,
        name: &str,
        table: &str,
        key: &str,
        values: &[&str],
    ) -> Result<u64, Refused> {
        let Some(transaction) = self.transactions.get_mut(name) else {
            return Err(Refused::NoTransaction(name.to_owned()));
        };
        let Some(rows) = self.tables.get_mut(table) else {
            return Err(Refused::NoTable(table.to_owned()));
        };
        if values.len() + 1 != rows.columns {
            return Err(Refused::BadWidth(rows.columns));
        }
        match rows.locks.get(key) {
            Some(holder) if *holder == transaction.xid => return Err(Refused::Duplicate),
            Some(holder) => return Err(Refused::Locked(*holder)),
            None => {}
        }
        if rows.rows.contains_key(key) {
            return Err(Refused::Duplicate);
        }
        rows.locks.insert(key.to_owned(), transaction.xid);
        let values = values.iter().map(|value| (*value).to_owned()).collect();
        transaction
            .writes
            .insert((table.to_owned(), key.to_owned()), values);
        transaction.actions += 1;
        self.last_action += 1;
        Ok(self.last_action)
    }

    /// Ends the transaction of this name: gives back its locks, and keeps what it wrote where it commits.
    fn end(&mut self, name: &str, commits: bool) -> Result<u64, Refused> {
        let Some(transaction) = self.transactions.remove(name) else {
            return Err(Refused::NoTransaction(name.to_owned()));
        };
        for ((table, key), values) in transaction.writes {
            if let Some(rows) = self.tables.get_mut(&table) {
                rows.locks.remove(&key);
                if commits {
                    rows.rows.insert(key, values);
                }
            }
        }
        Ok(transaction.actions)
    }

    /// The rows of a table in the order of their keys, as they are printed.
    fn rows(&self, table: &str) -> Result<String, Refused> {
        let Some(Table { rows, .. }) = self.tables.get(table) else {
            return Err(Refused::NoTable(table.to_owned()));
        };
        let mut reply = format!("ok rows {}", rows.len());
        for (key, values) in rows {
            reply.push(' ');
            reply.push_str(key);
            reply.push('=');
            reply.push_str(&values.join(","));
        }
        Ok(reply)
    }
}

impl Display for Refused {
    fn fmt(&self, out: &mut Formatter) -> fmt::Result {
        match self {
            Refused::Locked(xid) => write!(out, "no 12 locked {xid}"),
            Refused::Full => write!(out, "no 13 full {DATABASE_LIMIT}"),
            Refused::NoDatabase(name) => write!(out, "no 17 nodatabase {name}"),
            Refused::TableExists(table) => write!(out, "no 50 tableexists {table}"),
            Refused::NameUsed(name) => write!(out, "no 51 nameused {name}"),
            Refused::NoTable(table) => write!(out, "no 52 notable {table}"),
            Refused::NoTransaction(name) => write!(out, "no 53 notransaction {name}"),
            Refused::Duplicate => write!(out, "no 54 duplicate"),
            Refused::BadWidth(columns) => write!(out, "no 57 badwidth {columns}"),
        }
    }
}

#[derive(Default)]
struct Session {
    databases: BTreeMap<String, Database>,
}

impl Session {
    fn make_database(&mut self, name: &str) -> Result<(), Refused> {
        if self.databases.contains_key(name) {
            return Err(Refused::NameUsed(name.to_owned()));
        }
        if self.databases.len() >= DATABASE_LIMIT {
            return Err(Refused::Full);
        }
        self.databases.insert(name.to_owned(), Database::default());
        Ok(())
    }

    fn database(&mut self, name: &str) -> Result<&mut Database, Refused> {
        self.databases
            .get_mut(name)
            .ok_or_else(|| Refused::NoDatabase(name.to_owned()))
    }

    /// Obeys the command of these words, and answers what is replied.
    fn obey(&mut self, words: &[&str]) -> Result<String, Stop> {
        match *words {
            ["database", name] => {
                self.make_database(form(name, is_name)?)?;
                Ok("ok".to_owned())
            }
            ["table", name, table, columns] => {
                let (name, table) = (form(name, is_name)?, form(table, is_table_name)?);
                let columns = columns_of(columns)?;
                self.database(name)?.make_table(table, columns)?;
                Ok("ok".to_owned())
            }
            ["begin", name, transaction] => {
                let (name, transaction) = (form(name, is_name)?, form(transaction, is_name)?);
                let xid = self.database(name)?.begin(transaction)?;
                Ok(format!("ok xid {xid}"))
            }
            ["insert", name, transaction, table, key, ref values @ ..] => {
                let (name, transaction) = (form(name, is_name)?, form(transaction, is_name)?);
                let (table, key) = (form(table, is_table_name)?, form(key, is_value)?);
                if !values.iter().all(|value| is_value(value)) {
                    return Err(Stop::BadLine);
                }
                let database = self.database(name)?;
                let number = database.insert(transaction, table, key, values)?;
                Ok(format!("ok action {number}"))
            }
            ["commit", name, transaction] => {
                let (name, transaction) = (form(name, is_name)?, form(transaction, is_name)?);
                let actions = self.database(name)?.end(transaction, true)?;
                Ok(format!("ok actions {actions}"))
            }
            ["abort", name, transaction] => {
                let (name, transaction) = (form(name, is_name)?, form(transaction, is_name)?);
                self.database(name)?.end(transaction, false)?;
                Ok("ok".to_owned())
            }
            ["rows", name, table] => {
                let (name, table) = (form(name, is_name)?, form(table, is_table_name)?);
                Ok(self.database(name)?.rows(table)?)
            }
            _ => Err(Stop::BadLine),
        }
    }
}

/// Runs the lines, and answers the number of the one that is no command, if there is one.
fn run(mut lines: impl BufRead, out: &mut impl Write) -> io::Result<Option<u64>> {
    let mut session = Session::default();
    let mut line = String::new();
    for number in 1.. {
        line.clear();
        if lines.read_line(&mut line)? == 0 {
            break;
        }
        let text = line.strip_suffix('\n').map_or(line.as_str(), |text| {
            text.strip_suffix('\r').unwrap_or(text)
        });
        let words: Vec<&str> = text.split(' ').filter(|word| !word.is_empty()).collect();
        if words.is_empty() || words[0].starts_with('#') {
            continue;
        }
        if text.len() > LINE_LIMIT {
            return Ok(Some(number));
        }
        match session.obey(&words) {
            Ok(reply) => writeln!(out, "{reply}")?,
            Err(Stop::Refused(refused)) => writeln!(out, "{refused}")?,
            Err(Stop::BadLine) => return Ok(Some(number)),
        }
    }
    Ok(None)
}

/// Makes the keys and values of this number of rows, puts them into one ordered map if `puts`, and answers how many the
/// map has.
fn put_rows(count: usize, puts: bool) -> usize {
    let made: Vec<(String, String)> = (0..count)
        .map(|row| (format!("k{row}"), format!("v{row}")))
        .collect();
    let mut rows: BTreeMap<String, Vec<String>> = BTreeMap::new();
    if puts {
        for (key, value) in &made {
            rows.insert(key.clone(), vec![value.clone()]);
        }
    }
    let count = rows.len();
    // letting go of them is no part of what is measured
    std::mem::forget((rows, made));
    count
}

fn main() -> io::Result<ExitCode> {
    let words: Vec<String> = env::args().skip(1).collect();
    let path = match words.iter().map(String::as_str).collect::<Vec<_>>()[..] {
        [path] => path,
        ["--put" | "--make", count] => {
            let count = count.parse().unwrap_or(0);
            println!("{}", put_rows(count, words[0] == "--put"));
            return Ok(ExitCode::from(0));
        }
        _ => {
            eprintln!("usage: bare SESSION | --put N | --make N");
            return Ok(ExitCode::from(2));
        }
    };
    let mut out = BufWriter::new(io::stdout().lock());
    let bad = run(BufReader::new(File::open(path)?), &mut out)?;
    if let Some(number) = bad {
        writeln!(out, "stop line {number}")?;
    }
    out.flush()?;
    Ok(ExitCode::from(if bad.is_some() { 3 } else { 0 }))
}
