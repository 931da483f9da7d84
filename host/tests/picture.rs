//! `amx picture` from outside: what a page holds, what it does not, and when there is none.
mod common;

use amx::{Answer, Call, PROVED, Record, Register, Run, State, Trace, Width, random::Random, reference, text};
use common::{FILE, REFUSED, Room, TEXT, USAGE, amx, fails, fed, name};
use std::{
    fs,
    path::{Path, PathBuf},
};

/// The page of a file, and what is said on standard error.
fn picture(room: &Room, file: &Path, options: &[&str]) -> (String, String) {
    let page = room.0.join("page.html");
    let output = amx(&[&["picture", name(file), "-o", name(&page)], options].concat());
    let said = String::from_utf8(output.stderr).unwrap();
    assert_eq!((output.status.code(), output.stdout.len()), (Some(0), 0), "{said}");
    (fs::read_to_string(&page).unwrap(), said)
}

/// The data of a page, read as the page's script reads it.
struct Data<'a> {
    start: Vec<u8>,
    before: &'a str,
    /// A line each.
    items: Vec<&'a str>,
    whole: &'a str,
}

impl<'a> Data<'a> {
    fn of(page: &'a str) -> Self {
        let (_, whole) = page.split_once("<script type=\"application/json\" id=\"data\">").unwrap();
        let (whole, _) = whole.split_once("</script>").unwrap();
        let items = whole.lines().filter(|line| line.starts_with("{\"kind\":\"")).collect();
        Data { start: bytes(member(whole, "start")), before: member(whole, "before"), items, whole }
    }

    /// The registers before the first item, and after each.
    fn registers(&self) -> Vec<Vec<u8>> {
        let mut registers = self.start.clone();
        apply(&mut registers, self.before);
        let mut all = vec![registers.clone()];
        for item in &self.items {
            apply(&mut registers, member(item, "changes"));
            all.push(registers.clone());
        }
        all
    }
}

/// A string of an object in which no quote is escaped.
fn member<'a>(object: &'a str, name: &str) -> &'a str {
    let (_, value) = object.split_once(&format!("\"{name}\":\"")).unwrap_or_else(|| panic!("{name} in {object}"));
    value.split_once('"').unwrap().0
}

fn bytes(base64: &str) -> Vec<u8> {
    let digit = |letter| match letter {
        b'A'..=b'Z' => letter - b'A',
        b'a'..=b'z' => letter - b'a' + 26,
        b'0'..=b'9' => letter - b'0' + 52,
        b'+' => 62,
        b'/' => 63,
        _ => panic!("{letter} is no digit"),
    };
    let digits: Vec<u8> = base64.trim_end_matches('=').bytes().map(digit).collect();
    let four = |four: &[u8]| {
        let number = (0..4).fold(0u32, |number, at| number << 6 | u32::from(four.get(at).copied().unwrap_or(0)));
        number.to_be_bytes()[1..four.len()].to_vec()
    };
    digits.chunks(4).flat_map(four).collect()
}

fn apply(registers: &mut [u8], changes: &str) {
    let changes = bytes(changes);
    let mut rest = &changes[..];
    while let [a, b, c, d, bytes @ ..] = rest {
        let (first, length) = (usize::from(u16::from_le_bytes([*a, *b])), usize::from(u16::from_le_bytes([*c, *d])));
        registers[first..first + length].copy_from_slice(&bytes[..length]);
        rest = &bytes[length..];
    }
    assert!(rest.is_empty());
}

/// The bytes of Z in the lanes that an item says are enabled.
fn enabled(item: &str) -> Vec<usize> {
    let Some((_, groups)) = item.split_once("\"enabled\":[[\"") else { return Vec::new() };
    let width = member(item, "reading")[1..].parse::<usize>().unwrap() / 8;
    let set = |hex: &str| {
        let bits = u64::from_str_radix(hex, 16).unwrap();
        (0..64).filter(move |n| bits >> n & 1 == 1).collect::<Vec<usize>>()
    };
    let mut enabled = Vec::new();
    for group in groups.split_once("\"]]").unwrap().0.split("\"],[\"") {
        let (lanes, rows) = group.split_once("\",\"").unwrap();
        for row in set(rows) {
            enabled.extend(set(lanes).into_iter().flat_map(|lane| (0..width).map(move |byte| 64 * row + width * lane + byte)));
        }
    }
    enabled.sort();
    enabled
}

fn product() -> PathBuf {
    Path::new(env!("CARGO_MANIFEST_DIR")).join("../crates/traces/data/product.trace")
}

/// The page's items from a place on are the run's steps: their texts, answers, enabled lanes, and the registers around them.
fn holds(page: &str, trace: &Trace, from: usize) {
    let (data, mut run) = (Data::of(page), Run::new(trace.header()));
    let registers = data.registers();
    assert_eq!(data.start, trace.start().registers());
    let mut shown = 0;
    for &record in trace.records() {
        let before = run.state().clone();
        let Some((place, answer)) = run.take(record).filter(|&(place, _)| (from..from + 2_048).contains(&place)) else { continue };
        assert_eq!(registers[shown], before.registers(), "before step {place}");
        assert_eq!(registers[shown + 1], run.state().registers(), "after step {place}");
        is_step(data.items[shown], place, record.into(), answer);
        shown += 1;
    }
    assert_eq!(data.items.len(), shown);
}

/// An item is a step: its place, its text, what it answered and the lanes that it enables.
fn is_step(item: &str, place: usize, call: Call, answer: Answer) {
    assert!(item.starts_with(&format!("{{\"kind\":\"step\",\"number\":{place},\"text\":\"{call}\",")), "{item}");
    assert!(item.contains(&format!(",\"words\":\"{answer:#}")), "{item}");
    let lanes = if answer.is_done() { reference::lanes(call.instruction, call.generation, call.operand) } else { Vec::new() };
    let bytes = lanes.iter().flat_map(|lane| lane.start()..lane.start() + lane.bytes);
    let mut bytes: Vec<usize> = bytes.map(|byte| byte - Register::Z(0).start()).collect();
    bytes.sort();
    assert_eq!(enabled(item), bytes, "{item}");
    assert!(!answer.is_done() || answer == Answer::Done { bytes: bytes.len() as u64 }, "{item}");
}

#[test]
fn a_page_holds_its_run() {
    let room = Room::new("run");
    let trace = Trace::from_bytes(&fs::read(product()).unwrap()).unwrap();
    let (page, said) = picture(&room, &product(), &[]);
    assert_eq!(said, "");
    let notes = if PROVED { "[]" } else { "[\"second program, not the proved unit\"]" };
    assert!(page.contains(&format!("\n\"notes\":{notes},\n")));
    assert_eq!((page.contains("<p>Run by the proved unit."), page.contains("<p>Run by second program, not the")), (PROVED, !PROVED));
    holds(&page, &trace, 0);
    let (end, answers) = trace.run();
    let data = Data::of(&page);
    assert_eq!((data.registers().last().unwrap().as_slice(), answers.len()), (end.registers().as_slice(), data.items.len()));
    assert!(page.contains("\"answer\":\"no-op\",\"words\":\"no-op 3: ALU modes 10 to 12 are not on M1\",\"changes\":\"\"}"));
    assert!(page.contains("\"answer\":\"refused\",\"words\":\"refused 4: not covered are shuffles"));
    // the same totals as run has, in numbers and in words
    let run = String::from_utf8(amx(&["run", "--json", name(&product())]).stdout).unwrap();
    let totals = &run[run.find("\"consumed\"").unwrap()..run.find(",\"rows\"").unwrap()];
    assert!(data.whole.contains(&format!("{{\"summary\":{{{totals}}},")), "{totals}");
    let summary = String::from_utf8(amx(&["run", "--summary", name(&product())]).stdout).unwrap();
    assert!(page.contains(summary.lines().next().unwrap()), "{summary}");
    assert_eq!(room.names(), ["page.html"]);
}

#[test]
fn a_page_holds_any_run_from_any_state() {
    let room = Room::new("any");
    let mut random = Random::new(23);
    for (records, after, from) in
        [(0, None, 0), (1, None, 0), (300, None, 0), (300, Some(120), 0), (300, None, 77), (300, Some(50), 200), (40, Some(40), 3)]
    {
        let trace = random.trace(records);
        let trace = after.map_or(trace.clone(), |after| trace.cut(after).unwrap());
        let file = room.write("trace", trace.to_bytes());
        let (page, said) = picture(&room, &file, &["--from", &from.to_string()]);
        holds(&page, &trace, from);
        assert_eq!(!said.is_empty(), from > after.unwrap_or(0), "{said}");
    }
}

#[test]
fn a_text_and_standard_input_have_pages_too() {
    let room = Room::new("input");
    let source = "x hex: 0300\ny f32: 1.5\nmac16 m1 vector z_row=3\nvecfp m2 mode=12 widths=4\nraw 18 2 0x8000\n";
    let file = room.write("kernel.txt", source);
    let (page, _) = picture(&room, &file, &[]);
    holds(&page, &text::assemble(source).unwrap(), 0);
    assert!(page.contains(",\"reading\":\"f32\",\"enabled\":[[\"ffff\",\"1\"]],"));
    let output = fed(&["picture", "-", "-o", "-"], source.as_bytes(), 5);
    assert!(output.status.success());
    let piped = String::from_utf8(output.stdout).unwrap();
    assert!(piped.contains("<title>standard input: Z step by step</title>"));
    assert_eq!(Data::of(&piped).whole, Data::of(&page).whole);
}

#[test]
fn loads_between_steps_are_shown() {
    let room = Room::new("loads");
    let source =
        "x i16: 3\ny i16: 2\nmac16 m1 vector\nload x 0 i16: 5\nload y 0 i16: 7\nload x 0 i16: 4\nmac16 m1 vector\nload z 9 hex: ff\n";
    let file = room.write("loads.txt", source);
    let (page, said) = picture(&room, &file, &[]);
    assert_eq!(said, "");
    let (data, texts) = (Data::of(&page), ["mac16 m1 vector", "load x 0, y 0", "mac16 m1 vector", "load z 9"]);
    assert_eq!(data.items.iter().map(|item| member(item, "text")).collect::<Vec<_>>(), texts);
    assert!(data.items[1].starts_with("{\"kind\":\"load\",\"text\":\"load x 0, y 0\",\"words\":\"2 registers loaded\",\"changes\":\""));
    let states: Vec<State> = data.registers().into_iter().map(|bytes| State::from_registers(bytes.try_into().unwrap())).collect();
    let lanes = |register| states.iter().map(|state| state.lane(register, 0, Width::Bits16)).collect::<Vec<_>>();
    assert_eq!((lanes(Register::X(0)), lanes(Register::Y(0))), (vec![3, 3, 4, 4, 4], vec![2, 2, 7, 7, 7]));
    assert_eq!((lanes(Register::Z(0)), lanes(Register::Z(9))), (vec![0, 6, 6, 34, 34], vec![0, 0, 0, 0, 255]));
    // from a step on: what is loaded right before it is shown too
    let (page, said) = picture(&room, &file, &["--from", "1"]);
    assert!(said.ends_with(": step 1 of 2 is shown\n"), "{said}");
    assert_eq!(Data::of(&page).items, data.items[1..]);
    assert_eq!(Data::of(&page).registers(), data.registers()[1..]);
}

#[test]
fn a_page_needs_nothing_from_elsewhere() {
    let (page, _) = picture(&Room::new("alone"), &product(), &[]);
    for word in ["http:", "https:", "//www", "src=", "href=", "@import", "url(", "<link", "<img", "<iframe", "<object", "fetch(", "import("]
    {
        assert!(!page.contains(word), "{word}");
    }
    assert!(page.contains("content=\"default-src 'none'; style-src 'unsafe-inline'; script-src 'unsafe-inline'\""));
    assert_eq!((page.matches("<script").count(), page.matches("</script>").count()), (2, 2));
    assert!(page.starts_with("<!doctype html>\n<html lang=\"en\">") && !page.contains("{{") && page.ends_with("</html>\n"));
    // every control has a label, and the grid its roles
    for control in ["position", "reading", "small", "side-reading"] {
        assert!(page.contains(&format!(" for=\"{control}\">")), "{control}");
    }
    assert!(page.contains("prefers-color-scheme: dark") && page.contains("\"role\", \"grid\"") && page.contains("role=\"status\""));
}

#[test]
fn a_name_cannot_write_into_the_page() {
    let room = Room::new("names");
    let file = room.write("<script>alert(1)<&'\"{{data}}.txt", "mac16 m1\n");
    let (page, _) = picture(&room, &file, &[]);
    let escaped = "&lt;script&gt;alert(1)&lt;&amp;&#39;&quot;{{data}}.txt";
    assert_eq!((page.matches("<script").count(), page.matches(escaped).count()), (2, 3));
    assert!(page.contains(&format!("{escaped}: Z step by step</title>")) && page.contains(&format!("{escaped}</h1>")));
    assert_eq!(Data::of(&page).items.len(), 1);
}

#[test]
fn a_page_has_no_more_than_2048_steps_and_says_so() {
    let room = Room::new("long");
    let trace = Random::new(29).trace(3_000);
    let file = room.write("long.amx", trace.to_bytes());
    let (page, said) = picture(&room, &file, &[]);
    let note = "steps 0 to 2,047 of 3,000 are shown; --from 2048 shows the next";
    assert_eq!(said, format!("{}: {note}\n", name(&file)));
    let words = |page: &str, note| Data::of(page).whole.contains(&format!("\"{note}; the totals are of all steps\"]"));
    assert!(words(&page, note) && page.contains("\"steps\":3000,"));
    holds(&page, &trace, 0);
    let (page, said) = picture(&room, &file, &["--from=2048"]);
    let note = "steps 2,048 to 2,999 of 3,000 are shown";
    assert_eq!(said, format!("{}: {note}\n", name(&file)));
    assert!(words(&page, note));
    holds(&page, &trace, 2_048);
}

/// Each step changes nearly all of Z.
#[test]
fn the_largest_page_stays_below_15_megabytes() {
    let (room, mut random, mut trace) = (Room::new("largest"), Random::new(3), Trace::new(State::new()));
    random.bytes(1_024).into_iter().zip(trace.registers_mut()).for_each(|(byte, register)| *register = byte);
    for _ in 0..2_048 {
        // 32-bit Z, and offsets of X and Y
        let operand = 1 << 62 | random.below(512) << 10 | random.below(512);
        trace.push(Record { instruction: 14, generation: 1, operand }).unwrap();
    }
    let (page, said) = picture(&room, &room.write("matrix.amx", trace.to_bytes()), &[]);
    assert!(said.is_empty() && !page.contains("are shown"));
    assert_eq!(Data::of(&page).items.len(), 2_048);
    assert!((10_000_000..15_000_000).contains(&page.len()), "{} bytes", page.len());
}

#[test]
fn a_wrong_place_to_begin_is_told() {
    let room = Room::new("from");
    let (file, page) = (room.write("one.txt", "mac16 m1\n"), room.0.join("page.html"));
    for (from, words) in [
        ("1", "--from: there is no step 1, the file has 1 from 0 on"),
        ("18446744073709551615", "--from: there is no step 18446744073709551615"),
        ("-1", "expected picture FILE [--from K] -o PAGE, FILE a trace or a text: --from: expected a number"),
        ("first", "--from: expected a number"),
    ] {
        fails(USAGE, &["picture", name(&file), "--from", from, "-o", name(&page)], words);
    }
    fails(USAGE, &["picture", name(&file)], "-o is missing");
    fails(USAGE, &["picture", "-o", name(&page)], "0 words given");
    assert_eq!(room.names(), ["one.txt"]);
}

#[test]
fn what_has_no_page_leaves_the_old_one() {
    let room = Room::new("none");
    let page = room.write("page.html", "old");
    let (short, long) = (Random::new(31).trace(3).to_bytes(), Random::new(37).trace(2_100).to_bytes());
    let (cut, wrong) = (room.write("cut.amx", &short[..short.len() - 1]), room.write("wrong.txt", "mac16 m1\nmac17 m1\n"));
    let behind = room.write("behind.amx", [&long[..], &[0]].concat());
    fails(REFUSED, &["picture", name(&cut), "-o", name(&page)], "cut.amx: file refused 6: ");
    fails(REFUSED, &["picture", name(&cut), "-o", "-"], "cut.amx: file refused 6: ");
    // steps that are not shown are read too
    fails(REFUSED, &["picture", name(&behind), "-o", name(&page)], "behind.amx: file refused 6: ");
    fails(TEXT, &["picture", name(&wrong), "-o", name(&page)], "wrong.txt, line 2: ");
    fails(FILE, &["picture", name(&room.0.join("nowhere.amx")), "-o", name(&page)], "nowhere.amx: ");
    assert_eq!(fs::read(&page).unwrap(), b"old");
    let file = room.write("one.txt", "mac16 m1\n");
    fails(FILE, &["picture", name(&file), "-o", name(&room.0.join("no/page.html"))], "no/page.html: ");
    fails(FILE, &["picture", name(&file), "-o", name(&room.0)], &format!("{}: ", name(&room.0)));
    fails(USAGE, &["picture", name(&file), "-o", name(&file)], "this is what is read, and would be lost");
    assert_eq!(fs::read(&file).unwrap(), b"mac16 m1\n");
    assert_eq!(room.names(), ["behind.amx", "cut.amx", "one.txt", "page.html", "wrong.txt"]);
}

#[cfg(unix)]
#[test]
fn a_page_takes_an_old_one_s_place_and_permissions() {
    use std::os::unix::fs::PermissionsExt;
    let room = Room::new("old");
    let (file, page) = (room.write("one.txt", "mac16 m1\n"), room.write("page.html", "old"));
    fs::set_permissions(&page, fs::Permissions::from_mode(0o640)).unwrap();
    let (text, _) = picture(&room, &file, &[]);
    assert!(text.starts_with("<!doctype html>"));
    assert_eq!(fs::metadata(&page).unwrap().permissions().mode() & 0o777, 0o640);
    assert_eq!(room.names(), ["one.txt", "page.html"]);
}
