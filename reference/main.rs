//! A reference program for a worker placement service, to be compared with another program that does
//! the same. It reads standard input and writes standard output. README.md lists the subcommands and
//! the forms of their lines.

mod generate;
mod model;

use model::*;
use std::io::{self, BufRead, BufWriter, Read, Write};

/// More bytes than this are "too long" for a sheet given to the program.
const LONGEST_INPUT: usize = 65_536;

fn main() {
    let arguments: Vec<String> = std::env::args().skip(1).collect();
    let words: Vec<&str> = arguments.iter().map(|word| word.as_str()).collect();
    let mut out = BufWriter::with_capacity(1 << 20, io::stdout().lock());
    let result = run(&words, &mut out).and_then(|_| out.flush());
    if let Err(error) = result {
        if error.kind() != io::ErrorKind::BrokenPipe {
            eprintln!("{}", error);
            std::process::exit(1);
        }
    }
}

fn run(words: &[&str], out: &mut dyn Write) -> io::Result<()> {
    match words {
        [version @ ("fields" | "counts" | "settle" | "place")] => {
            let mut bytes = Vec::new();
            io::stdin().lock().read_to_end(&mut bytes)?;
            out.write_all(output(version, &bytes).as_bytes())
        }
        ["cases", version @ ("fields" | "counts" | "settle" | "place")] => each_line(|index, line| {
            let bytes = from_hex(line)?;
            writeln!(out, "case {}", index)?;
            out.write_all(output(version, &bytes).as_bytes())
        }),
        ["rotations"] => each_line(|index, line| {
            let bytes = from_hex(line)?;
            writeln!(out, "case {}", index)?;
            out.write_all(rotations_output(&bytes).as_bytes())
        }),
        ["check"] => each_line(|_, line| {
            let [sheet, placement] = parts(line)?;
            writeln!(out, "{}", check_output(&from_hex(sheet)?, &from_hex(placement)?)?)
        }),
        ["choose"] => each_line(|_, line| {
            let [sheet, tenant, set] = parts(line)?;
            writeln!(out, "{}", choose_output(&from_hex(sheet)?, number(tenant)?, number(set)?))
        }),
        ["write"] => each_line(|_, line| {
            let [sheet, buffer] = parts(line)?;
            writeln!(out, "{}", write_output(&from_hex(sheet)?, from_hex(buffer)?))
        }),
        ["script"] => script(out, false),
        ["script", "last"] => script(out, true),
        ["journal"] => each_line(|index, line| {
            let bytes = from_hex(line)?;
            writeln!(out, "case {}", index)?;
            out.write_all(journal_output(&bytes).as_bytes())
        }),
        ["journal", "add"] => journal_adds(out),
        ["gen-sheets", seed, count] => generate::sheets(out, number(seed)?, number(count)?),
        ["gen-damaged", seed, count] => generate::damaged(out, number(seed)?, number(count)?),
        ["gen-edge"] => generate::edge(out, false),
        ["gen-edge", "names"] => generate::edge(out, true),
        ["gen-tables"] => generate::tables(out),
        ["gen-special"] => generate::special(out, false),
        ["gen-special", "names"] => generate::special(out, true),
        ["gen-checks", seed, count] => generate::checks(out, number(seed)?, number(count)?),
        ["gen-chooses", seed, count] => generate::chooses(out, number(seed)?, number(count)?),
        ["gen-writes", seed, count] => generate::writes(out, number(seed)?, number(count)?),
        ["gen-scripts", seed, count, calls] => {
            generate::scripts(out, number(seed)?, number(count)?, number(calls)?)
        }
        ["gen-journals", seed, count] => generate::journals(out, number(seed)?, number(count)?),
        ["gen-adds", seed, count] => generate::adds(out, number(seed)?, number(count)?),
        _ => {
            eprintln!("see README.md for the subcommands");
            std::process::exit(2);
        }
    }
}

// ------------------------------------------------------------------------------------------------
// Lines and numbers
// ------------------------------------------------------------------------------------------------

fn wrong(what: &str) -> io::Error {
    io::Error::new(io::ErrorKind::InvalidInput, what.to_string())
}

/// Does something with each line of standard input and its index from 0.
fn each_line(mut action: impl FnMut(usize, &str) -> io::Result<()>) -> io::Result<()> {
    for (index, line) in io::stdin().lock().lines().enumerate() {
        action(index, &line?)?;
    }
    Ok(())
}

/// A line of exactly so many parts between single spaces; a part may be empty.
fn parts<const N: usize>(line: &str) -> io::Result<[&str; N]> {
    let found: Vec<&str> = line.split(' ').collect();
    found.try_into().map_err(|_| wrong("a line with the wrong number of parts"))
}

fn number<T: std::str::FromStr>(text: &str) -> io::Result<T> {
    text.parse().map_err(|_| wrong("not a number, or one too large"))
}

fn from_hex(text: &str) -> io::Result<Vec<u8>> {
    let digit = |c: u8| (c as char).to_digit(16).map(|value| value as u8);
    let digits: Option<Vec<u8>> = text.bytes().map(digit).collect();
    match digits {
        Some(digits) if digits.len() % 2 == 0 => {
            Ok(digits.chunks(2).map(|two| two[0] * 16 + two[1]).collect())
        }
        _ => Err(wrong("not bytes in hexadecimal")),
    }
}

pub fn to_hex(bytes: &[u8]) -> String {
    let digits = b"0123456789abcdef";
    let mut text = String::with_capacity(2 * bytes.len());
    for &byte in bytes {
        text.push(digits[byte as usize / 16] as char);
        text.push(digits[byte as usize % 16] as char);
    }
    text
}

// ------------------------------------------------------------------------------------------------
// The program, in four versions
// ------------------------------------------------------------------------------------------------

/// What a version of the program prints for an input.
fn output(version: &str, bytes: &[u8]) -> String {
    if bytes.len() > LONGEST_INPUT {
        return "too long\n".to_string();
    }
    if version == "fields" {
        return fields_output(bytes);
    }
    let sheet = match Sheet::read(bytes) {
        Err(fault) => return format!("{}\n", fault),
        Ok(sheet) => sheet,
    };
    match version {
        "counts" => format!("workers {}\ntenants {}\n", sheet.workers.len(), sheet.tenants.len()),
        "settle" => {
            let (placement, rounds) = settle(&sheet.lists(), sheet.policy().as_ref());
            settled_lines(&sheet.lists(), &placement, rounds)
        }
        _ => place_output(&sheet),
    }
}

/// A line for each field in turn, and at the end the place that was reached. There has to be one field.
fn fields_output(bytes: &[u8]) -> String {
    let mut text = String::new();
    let mut place = 0;
    loop {
        match field_at(bytes, place) {
            Err(fault) => {
                text += &format!("{}\n", fault);
                return text;
            }
            Ok(field) => {
                text +=
                    &format!("field tag {} at {} length {}\n", field.tag, field.place, field.content.len());
                place = field.end();
            }
        }
        if place == bytes.len() {
            text += &format!("end {}\n", place);
            return text;
        }
    }
}

fn settled_lines(lists: &Lists, placement: &Placement, rounds: usize) -> String {
    let mut text = format!("rounds {}\n", rounds);
    for worker in 0..lists.workers() {
        if placement[worker] == NONE {
            text += &format!("worker {} none\n", worker);
        } else {
            text += &format!("worker {} tenant {}\n", worker, placement[worker]);
        }
    }
    text
}

/// The whole program: it settles a board whose first event number is 1, then opens and commits by the
/// lowest worker on a rotation until there is none left.
fn place_output(sheet: &Sheet) -> String {
    let (mut board, rounds) = Board::make(sheet.lists(), sheet.policy(), 1);
    let mut text = settled_lines(&board.lists, &board.placement, rounds);
    let mut slip = [NO_EVENT; 64];
    'again: loop {
        for worker in 0..board.lists.workers() as u64 {
            let (answer, ticket) = board.open(worker, &mut slip);
            match answer {
                Answer::Refused(refusal) => assert_eq!(refusal, 40),
                Answer::Accepted(filled) => {
                    for event in &slip[..filled] {
                        text += &event_line(event);
                    }
                    match board.commit(ticket, &mut slip) {
                        Answer::Refused(_) => unreachable!(),
                        Answer::Accepted(filled) => {
                            for event in &slip[..filled] {
                                text += &event_line(event);
                            }
                        }
                    }
                    continue 'again;
                }
            }
        }
        break;
    }
    text += &format!("end {}\n", board.next);
    text
}

fn event_line(event: &Event) -> String {
    let kind = match event.kind {
        1 => "drain",
        2 => "move",
        _ => unreachable!(),
    };
    format!("event {} {} worker {} from {} to {}\n", event.number, kind, event.worker, event.from, event.to)
}

// ------------------------------------------------------------------------------------------------
// Single questions
// ------------------------------------------------------------------------------------------------

fn rotations_output(bytes: &[u8]) -> String {
    let sheet = match Sheet::read(bytes) {
        Err(fault) => return format!("{}\n", fault),
        Ok(sheet) => sheet,
    };
    let lists = sheet.lists();
    let policy = sheet.policy();
    let (placement, _) = settle(&lists, policy.as_ref());
    let mut text = String::new();
    for moves in rotations(&lists, policy.as_ref(), &placement) {
        text += "rotation";
        for one in moves {
            text += &format!(" {} {}>{}", one.worker, one.from, one.to);
        }
        text += "\n";
    }
    if text.is_empty() {
        text = "none\n".to_string();
    }
    text
}

fn check_output(sheet: &[u8], placement: &[u8]) -> io::Result<String> {
    let placement: Placement = placement.try_into().map_err(|_| wrong("a placement has 64 bytes"))?;
    Ok(match Sheet::read(sheet) {
        Err(fault) => fault.to_string(),
        Ok(sheet) => {
            let (number, worker, tenant) = check(&sheet.lists(), sheet.policy().as_ref(), &placement);
            format!("{} {} {}", number, worker, tenant)
        }
    })
}

fn choose_output(sheet: &[u8], tenant: usize, set: u64) -> String {
    match Sheet::read(sheet) {
        Err(fault) => fault.to_string(),
        Ok(sheet) => sheet.policy().choose(tenant, &Set::from_bits(set)).bits().to_string(),
    }
}

fn write_output(sheet: &[u8], mut buffer: Vec<u8>) -> String {
    match Sheet::read(sheet) {
        Err(fault) => fault.to_string(),
        Ok(sheet) => match sheet.write(&mut buffer) {
            Err(refusal) => format!("refused {} {}", refusal, to_hex(&buffer)),
            Ok(length) => format!("length {} {}", length, to_hex(&buffer)),
        },
    }
}

fn journal_output(bytes: &[u8]) -> String {
    let mut text = String::new();
    let mut reader = Reader::over(bytes);
    loop {
        let found = reader.next();
        match found {
            Found::Event(event) => {
                text += &format!(
                    "event {} {} {} {} {}\n",
                    event.number, event.kind, event.worker, event.from, event.to
                );
                continue;
            }
            Found::End => text += &format!("end {}\n", reader.place),
            Found::Fault(fault) => text += &format!("{}\n", fault),
        }
        assert_eq!(reader.next(), found);
        return text;
    }
}

/// Lines `room N` (a new journal with room for N bytes) and `add NUMBER KIND WORKER FROM TO`.
fn journal_adds(out: &mut dyn Write) -> io::Result<()> {
    let mut journal = Vec::new();
    let mut room = 0;
    each_line(|_, line| {
        let words: Vec<&str> = line.split(' ').collect();
        match words[..] {
            ["room", bytes] => {
                room = number(bytes)?;
                journal.clear();
                writeln!(out, "room {}", room)
            }
            ["add", event_number, kind, worker, from, to] => {
                let event = Event {
                    number: number(event_number)?,
                    kind: number(kind)?,
                    worker: number(worker)?,
                    from: number(from)?,
                    to: number(to)?,
                };
                match journal_add(&mut journal, room, &event) {
                    Err(refusal) => writeln!(out, "refused {} {}", refusal, to_hex(&journal)),
                    Ok(()) => writeln!(out, "accepted {} {}", journal.len(), to_hex(&journal)),
                }
            }
            _ => Err(wrong("neither room nor add")),
        }
    })
}

// ------------------------------------------------------------------------------------------------
// Scripts of board calls
// ------------------------------------------------------------------------------------------------

/// An entry that no call ever gives, so that one can see which entries of a slip were filled.
pub const NO_EVENT: Event = Event { number: u64::MAX, kind: 255, worker: 255, from: 255, to: 255 };

/// Reads a script, a call to a line, and prints a line for each:
///
///   sheet HEX FIRST    a board is made from these bytes with this first number
///   open W             commit TICKET      withdraw TICKET      back      rewind
///
/// TICKET is `blank` or a number. What is printed (all on one line, parts between single spaces):
///
///   ANSWER [ticket TICKET] slip ENTRY.. at PLACEMENT standing N ROTATION.. drain DRAIN next NUMBER
///
/// ANSWER     `made rounds R` for a sheet, `refused N`, or `accepted N` with the entries filled
/// ticket     only for open: `blank` or the number
/// ENTRY      the filled entries of the slip in order, each NUMBER.KIND.WORKER.FROM.TO
/// PLACEMENT  64 bytes in hexadecimal, ff for none and past the last worker
/// ROTATION   moves by rising worker, each WORKER.FROM.TO, joined by commas. All that stand, in order of
///            commit; with the argument `last` only the last one, though N still counts all
/// DRAIN      `none`, or its number and its rotation
/// NUMBER     the next event number
///
/// A sheet that can not be read answers its fault line, and the calls after it `no board`.
fn script(out: &mut dyn Write, only_last: bool) -> io::Result<()> {
    let mut board: Option<Board> = None;
    each_line(|_, line| {
        let words: Vec<&str> = line.split(' ').collect();
        let mut slip = [NO_EVENT; 64];
        let mut ticket = String::new();
        let answer;
        if let ["sheet", hex, first] = words[..] {
            match Sheet::read(&from_hex(hex)?) {
                Err(fault) => {
                    board = None;
                    return writeln!(out, "{}", fault);
                }
                Ok(sheet) => {
                    let (made, rounds) = Board::make(sheet.lists(), sheet.policy(), number(first)?);
                    board = Some(made);
                    answer = format!("made rounds {}", rounds);
                }
            }
        } else {
            let board = match &mut board {
                None => return writeln!(out, "no board"),
                Some(board) => board,
            };
            let given = match words[..] {
                ["open", worker] => {
                    let (given, issued) = board.open(number(worker)?, &mut slip);
                    ticket = match issued {
                        None => " ticket blank".to_string(),
                        Some(number) => format!(" ticket {}", number),
                    };
                    given
                }
                ["commit", ticket] => board.commit(read_ticket(ticket)?, &mut slip),
                ["withdraw", ticket] => board.withdraw(read_ticket(ticket)?),
                ["back"] => board.back(&mut slip),
                ["rewind"] => board.rewind(&mut slip),
                _ => return Err(wrong("an unknown call")),
            };
            let filled = slip.iter().take_while(|&entry| *entry != NO_EVENT).count();
            assert!(slip[filled..].iter().all(|entry| *entry == NO_EVENT));
            answer = match given {
                Answer::Refused(refusal) => {
                    assert_eq!(filled, 0);
                    format!("refused {}", refusal)
                }
                Answer::Accepted(count) => {
                    assert_eq!(filled, count);
                    format!("accepted {}", count)
                }
            };
        }
        write!(out, "{}{} slip", answer, ticket)?;
        for event in slip.iter().take_while(|&entry| *entry != NO_EVENT) {
            write!(out, " {}.{}.{}.{}.{}", event.number, event.kind, event.worker, event.from, event.to)?;
        }
        writeln!(out, "{}", state(board.as_ref().unwrap(), only_last))
    })
}

fn read_ticket(text: &str) -> io::Result<Ticket> {
    if text == "blank" {
        Ok(None)
    } else {
        Ok(Some(number(text)?))
    }
}

fn state(board: &Board, only_last: bool) -> String {
    let mut text = format!(" at {} standing {}", to_hex(&board.placement), board.standing.len());
    let shown = if only_last { board.standing.len().saturating_sub(1) } else { 0 };
    for moves in &board.standing[shown..] {
        text += " ";
        text += &rotation_text(moves);
    }
    match &board.drain {
        None => text += " drain none",
        Some((number, moves)) => text += &format!(" drain {} {}", number, rotation_text(moves)),
    }
    text += &format!(" next {}", board.next);
    text
}

fn rotation_text(moves: &[Move]) -> String {
    use std::fmt::Write;
    let mut text = String::new();
    for one in moves {
        if !text.is_empty() {
            text.push(',');
        }
        write!(text, "{}.{}.{}", one.worker, one.from, one.to).unwrap();
    }
    text
}
