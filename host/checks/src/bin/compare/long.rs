//! Long trace files: sizes at the edges of the trace program's runs, damage at those edges, the most steps, and files from a pipe.
use crate::tally::Tally;
use crate::traces::{Damage, Form, Place, Program, RUN, Saved, Text, draw_case_of, file_of, first_difference, refusal};
use amx::{Trace, random::Random, reference};

const SIZES: [usize; 5] = [RUN - 1, RUN, RUN + 1, 2 * RUN, 2 * RUN + 1];

/// What every list of damages must have met.
const NEEDED: [&str; 6] = [
    "two sections: run",
    "two sections: file refused 6",
    "two sections: file refused 7",
    "three sections: run",
    "three sections: file refused 6",
    "three sections: file refused 7",
];

/// Records in the middle of each run and at the edges of runs, and the last one.
fn places(n: usize) -> impl Iterator<Item = u64> {
    let places = [0, RUN / 2, RUN - 1, RUN, RUN + RUN / 2, 2 * RUN - 1, 2 * RUN, n - 1];
    places.into_iter().enumerate().filter(move |&(at, place)| place < n && !places[..at].contains(&place)).map(|(_, place)| place as u64)
}

/// Damage at each of these places, and behind the end.
fn damages(n: usize) -> Vec<Damage> {
    let mut damages = vec![Damage::None, Damage::Cut(28), Damage::Cut(5_147), Damage::Cut(5_148), Damage::TooMany];
    damages.extend([-1, 1].map(Damage::Announced));
    damages.extend([1, 15, 16, 17].into_iter().flat_map(|bytes| [Damage::Shorter(bytes), Damage::Longer(bytes)]));
    for place in places(n) {
        let padding = Damage::Padding(place, place as usize % 6, 0x80);
        damages.extend([0, 9].map(|bytes| Damage::After(place, bytes)));
        damages.push(padding.clone());
        // a wrong length behind it, its own record cut short, the one before it, and bad padding behind it
        let last = n as u64 - 1;
        let others = [
            Damage::Longer(1),
            Damage::After(last, 15),
            Damage::Announced(-1),
            Damage::After(place, 9),
            Damage::After(place.saturating_sub(1), 0),
            Damage::Padding((place + 1).min(last), 5, 1),
        ];
        damages.extend(others.into_iter().map(|other| Damage::both(padding.clone(), other)));
    }
    damages
}

/// Programs on a file: an error tells the first line that differs from the reference's.
fn same(what: &str, file: &[u8], expected: &str, texts: &[(&str, Text)]) -> Result<(), String> {
    for (name, text) in texts {
        let given = text(file);
        if given != expected {
            let found = first_difference([name, "reference"], [&given, expected]);
            return Err(format!("{name} and the reference differ on {what}:\n{found}"));
        }
    }
    Ok(())
}

/// Files of a run of steps, or two or three, sound and damaged: how many, and what they met.
pub fn files(random: &mut Random, texts: &[(&str, Text)]) -> Result<(u64, Tally), String> {
    let (mut count, mut tally) = (0, Tally::default());
    for n in SIZES {
        let case = draw_case_of(random, n);
        // one step is left of the first run, or none of the last
        let resumed = [(RUN as u64 - 2, Saved::Run), (n as u64, Saved::Other(random.bits()))];
        let [first, last] = resumed.map(|(consumed, saved)| Some((Place::Steps(consumed), saved)));
        let damaged = |checkpoint| damages(n).into_iter().map(move |damage| Form { checkpoint, damage });
        let forms = damaged(None).chain(damaged(first)).chain([Form { checkpoint: last, damage: Damage::None }]);
        for form in forms {
            let file = file_of(&case, &form);
            let expected = reference::trace(&file);
            same(&format!("a trace file of {n} steps ({form:?})"), &file, &expected, texts)?;
            let sections = if form.checkpoint.is_some() { "three" } else { "two" };
            tally.meet(format!("{sections} sections: {}", refusal(&expected).unwrap_or("run")));
            count += 1;
        }
    }
    tally.needs(&NEEDED, "long trace files")?;
    Ok((count, tally))
}

/// A file, what it is, and its text.
type Known = (&'static str, Vec<u8>, String);

/// A file of the most steps, mixed, and one whose last record is padded; the rest of such a file; and files of one step more, which are
/// refused before any line.
fn of_most_steps(random: &mut Random) -> Vec<Known> {
    let case = draw_case_of(random, Trace::MAX_RECORDS);
    let sound = |checkpoint| file_of(&case, &Form { checkpoint, damage: Damage::None });
    let one_more = |mut file: Vec<u8>, sections: usize, end: usize| {
        file.splice(end..end, [0; 16]);
        Damage::TooMany.apply(&mut file, sections, Trace::MAX_RECORDS + 1);
        file
    };
    let whole = sound(None);
    let text = reference::trace(&whole);
    let (end, mut padded) = (whole.len(), whole.clone());
    padded[end - 9] = 1;
    let before: String = text.split_inclusive('\n').take(Trace::MAX_RECORDS - 1).collect();
    let mut files = vec![("whole", whole.clone(), text), ("the last padded", padded, format!("{before}file refused 7\n"))];
    let left = [("a run and a step left", (RUN + 1) as u64), ("none left", 0)];
    let rests = left.map(|(what, left)| (what, sound(Some((Place::Steps(Trace::MAX_RECORDS as u64 - left), Saved::Other(left))))));
    let none_run = sound(Some((Place::Start, Saved::Run)));
    let more = [("two sections and one step more", one_more(whole, 2, end)), ("three and one step more", one_more(none_run, 3, end + 12))];
    files.extend(rests.into_iter().chain(more).map(|(what, file)| {
        let text = reference::trace(&file);
        (what, file, text)
    }));
    files
}

/// Programs on files of the most steps: how many.
pub fn most(random: &mut Random, texts: &[(&str, Text)]) -> Result<u64, String> {
    same_of_most(&of_most_steps(random), texts)
}

fn same_of_most(files: &[Known], texts: &[(&str, Text)]) -> Result<u64, String> {
    for (what, file, text) in files {
        same(&format!("a trace file of a million steps ({what})"), file, text, texts)?;
    }
    Ok(files.len() as u64)
}

/// Files of two sections through a pipe that hands over a few bytes at a time, and one of three, which cannot be read twice. How many.
pub fn pipes(program: &Program, random: &mut Random) -> Result<u64, String> {
    let n = RUN + 1;
    let case = draw_case_of(random, n);
    let last = n as u64 - 1;
    let damages = [
        Damage::None,
        Damage::Cut(27),
        Damage::Cut(28),
        Damage::Cut(5_147),
        Damage::After(last, 0),
        Damage::After(last, 9),
        Damage::Longer(1),
        Damage::Announced(-1),
        Damage::Padding(last, 0, 1),
        Damage::both(Damage::Padding(last - 1, 5, 1), Damage::Shorter(1)),
    ];
    let mut count = 0;
    for (damage, piece) in damages.iter().flat_map(|damage| [1, 3, 7, 4_093].map(|piece| (damage, piece))) {
        let file = file_of(&case, &Form { checkpoint: None, damage: damage.clone() });
        let output = program.piped(&file, piece)?;
        let text = |_: &[u8]| String::from_utf8_lossy(&output.stdout).into_owned();
        let what = format!("a trace file of {n} steps ({damage:?}) from a pipe, {piece} bytes at a time");
        same(&what, &file, &reference::trace(&file), &[("the trace program", &text)])?;
        count += 1;
    }
    let file = file_of(&case, &Form { checkpoint: Some((Place::Steps(3), Saved::Run)), damage: Damage::None });
    let output = program.piped(&file, 4_093)?;
    if !output.stdout.is_empty() || output.stderr.is_empty() {
        return Err("three sections from a pipe: nothing on standard error, or something on standard output\n".to_owned());
    }
    Ok(count + 1)
}

#[cfg(test)]
mod tests {
    use super::*;
    use crate::traces::read_text;

    fn found(text: Text) -> String {
        files(&mut Random::new(1), &[("it", text)]).err().unwrap_or_default()
    }

    /// The reference on the file without what is behind some of its bytes.
    fn first_bytes(file: &[u8], length: usize) -> String {
        reference::trace(&file[..file.len().min(length)])
    }

    fn announced(file: &[u8]) -> usize {
        file.get(24..28).map_or(0, |bytes| u32::from_le_bytes([bytes[0], bytes[1], bytes[2], bytes[3]]) as usize / 16)
    }

    #[test]
    fn what_is_wrong_about_a_long_trace_is_found() {
        let refused = |text: &str| refusal(text).map(|line| format!("{line}\n"));
        let two = |file: &[u8]| file.first() == Some(&2) && file.len() >= 5_148;
        let padding = |file: &[u8]| file[5_148..].chunks_exact(16).take(announced(file)).position(|record| record[2..8] != [0; 6]);
        let wrong: [(&str, Text); 9] = [
            ("checked whole first", &|file| {
                let text = reference::trace(file);
                refused(&text).unwrap_or(text)
            }),
            ("no more than a run", &|file| if announced(file) > RUN { "file refused 6\n".to_owned() } else { reference::trace(file) }),
            ("any number of steps", &|file| {
                let text = reference::trace(file);
                if announced(file) > Trace::MAX_RECORDS && two(file) { format!("step 0 done 0\n{text}") } else { text }
            }),
            ("the length before the padding", &|file| {
                let text = reference::trace(file);
                let wrong_length = two(file) && file.len() != 5_148 + 16 * announced(file);
                if wrong_length { text.replace("file refused 7", "file refused 6") } else { text }
            }),
            ("the padding of a record that is cut short", &|file| {
                let text = reference::trace(file);
                let left = if two(file) { file[5_148..].as_chunks::<16>().1 } else { &[] };
                if left.iter().skip(2).take(6).any(|&byte| byte != 0) { text.replace("file refused 6", "file refused 7") } else { text }
            }),
            ("bytes behind the end", &|file| {
                if two(file) { first_bytes(file, 5_148 + 16 * announced(file)) } else { reference::trace(file) }
            }),
            ("the padding of the first run alone", &|file| {
                let mut file = file.to_vec();
                if two(&file) {
                    file[5_148..].chunks_exact_mut(16).skip(RUN).for_each(|record| record[2..8].fill(0));
                }
                reference::trace(&file)
            }),
            ("a run that is padded prints no line", &|file| {
                let text = reference::trace(file);
                match two(file).then(|| padding(file)).flatten() {
                    Some(place) if text.ends_with("file refused 7\n") => {
                        text.split_inclusive('\n').take(place / RUN * RUN).chain(["file refused 7\n"]).collect()
                    }
                    _ => text,
                }
            }),
            ("step numbers of a run", &|file| reference::trace(file).replace("step 2048 ", "step 0 ")),
        ];
        for (name, wrong) in wrong {
            assert!(found(wrong).starts_with("it and the reference differ on a trace file of"), "{name}: {}", found(wrong));
        }
        assert_eq!(found(&read_text), "");
    }

    #[test]
    fn what_is_wrong_about_the_most_steps_is_found() {
        let files = of_most_steps(&mut Random::new(1));
        let found = |text: Text| same_of_most(&files, &[("it", text)]).err().unwrap_or_default();
        assert_eq!(found(&read_text), "");
        let fewer: Text = &|file| if announced(file) == Trace::MAX_RECORDS { "file refused 6\n".to_owned() } else { read_text(file) };
        assert!(found(fewer).contains("a trace file of a million steps (whole):\n  line 0: it file refused 6"), "{}", found(fewer));
        for (sections, what) in [(2, "(two sections and one step more)"), (3, "(three and one step more)")] {
            let more: Text = &|file| match announced(file) > Trace::MAX_RECORDS && file[0] == sections {
                true => "step 0 done 0\n".to_owned(),
                false => read_text(file),
            };
            assert!(found(more).contains(what), "{}", found(more));
        }
        let line: Text = &|file| read_text(file).replace("step 999999 ", "step 999998 ");
        assert!(found(line).contains("  line 999999: reference step 999999 "), "{}", found(line));
    }
}
