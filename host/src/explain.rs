use crate::{
    Answer, Call, Field, Generation, Instruction, NotDone, Refusal, State, fields, normal,
    reference::{self, Lane},
    step,
};
use std::{collections::BTreeMap, fmt};

/// How the words of a field's value end that the unit does not cover.
const NOT_COVERED: &str = "not covered";

/// An operand told field by field. `{}` writes it out.
#[derive(Debug)]
pub struct Explanation {
    /// The call that is explained.
    pub call: Call,
    /// Its instruction.
    pub instruction: Instruction,
    /// Its generation.
    pub generation: Generation,
    /// The fields of the operand, with their values.
    pub fields: Vec<(&'static Field, u64)>,
    /// The bits that the step ignores, whether set or not; none where it isn't done.
    pub ignored: u64,
    /// The operand with the ignored bits cleared.
    pub normal: u64,
    /// What the step answers where its serial is the one due.
    pub answer: Answer,
    /// The Z lanes that it enables, the [`mod@reference`]'s; none where it isn't done.
    pub lanes: Vec<Lane>,
}

/// Explains a call. An error is the refusal of an unknown generation or instruction, whose operand has no fields.
///
/// ```
/// use amx::{Call, explain};
/// let explanation = explain(Call::new(14, 1, 1 << 63 | 1 << 62 | 3 << 20)).unwrap();
/// assert_eq!(explanation.normal, 1 << 63 | 3 << 20);
/// assert!(explanation.to_string().contains("ignored and set: bit 62"));
/// assert_eq!(explanation.writes(), "writes z 3 lanes 0..31 (16 bits)");
/// ```
pub fn explain(call: Call) -> Result<Explanation, NotDone> {
    let generation = Generation::from_number(call.generation).ok_or(NotDone::Refused(Refusal::Generation))?;
    let instruction = Instruction::from_number(call.instruction).ok_or(NotDone::Refused(Refusal::Instruction))?;
    Ok(Explanation {
        call,
        instruction,
        generation,
        fields: fields(instruction, generation, call.operand).map(|field| (field, field.of(call.operand))).collect(),
        ignored: (0..64).map(|n| 1 << n).filter(|&bit| ignores(call, bit)).sum(),
        normal: normal(call).unwrap_or(call.operand),
        answer: step(&mut State::new(), call, 0),
        lanes: reference::lanes(call.instruction, call.generation, call.operand),
    })
}

/// Whether a step ignores a bit: whether it does is decided by other bits, so asking with the bit set tells.
fn ignores(call: Call, bit: u64) -> bool {
    normal(Call { operand: call.operand | bit, ..call }).is_ok_and(|normal| normal & bit == 0)
}

/// The numbers of the bits that are set.
fn bit_numbers(bits: u64) -> String {
    let set: Vec<usize> = (0..64).filter(|n| bits >> n & 1 == 1).collect();
    format!("{} {}", if set.len() == 1 { "bit" } else { "bits" }, listed(&set))
}

/// Ascending numbers: those that follow each other as `low..high`, five or more that are equally far apart as `1, 3, 5 .. 31`.
fn listed(numbers: &[usize]) -> String {
    let (mut parts, mut rest) = (Vec::new(), numbers);
    while let [first, others @ ..] = rest {
        let step = others.first().map_or(0, |next| next - first);
        let alike = (1..rest.len()).take_while(|&n| rest[n] - rest[n - 1] == step).count() + 1;
        let last = rest[alike - 1];
        let (part, told) = match (step, alike) {
            (1, _) => (format!("{first}..{last}"), alike),
            (_, 5..) => (format!("{first}, {}, {} .. {last}", first + step, first + 2 * step), alike),
            _ => (first.to_string(), 1),
        };
        parts.push(part);
        rest = &rest[told..];
    }
    parts.join(", ")
}

/// Rows of Z, as a list of numbers.
fn listed_rows(rows: &[usize]) -> String {
    let every = match rows {
        _ if rows.len() != 32 => "",
        _ if rows.iter().all(|row| row % 2 == 1) => " (odd rows)",
        _ if rows.iter().all(|row| row % 2 == 0) => " (even rows)",
        _ => "",
    };
    listed(rows) + every
}

impl fmt::Display for Explanation {
    fn fmt(&self, f: &mut fmt::Formatter) -> fmt::Result {
        let (name, generation, operand) = (self.instruction.name(), self.generation as u8, self.call.operand);
        writeln!(f, "{name} on M{generation}, operand {operand:#018x}")?;
        let mut sorted: Vec<_> = self.fields.iter().collect();
        sorted.sort_by_key(|(field, _)| std::cmp::Reverse(field.high));
        for (field, value) in sorted {
            write!(f, "  {:<12} {:<16} {value:<3}  {}", field.bits(), field.short, field.meaning)?;
            if let Some(words) = self.words(field, *value) {
                write!(f, ": {words}")?;
            }
            match self.ignored & field.mask() {
                0 => writeln!(f)?,
                all if all == field.mask() => writeln!(f, " (ignored)")?,
                some => writeln!(f, " ({} ignored)", bit_numbers(some))?,
            }
        }
        match self.ignored & operand {
            0 => writeln!(f, "no ignored bit is set")?,
            set => writeln!(f, "ignored and set: {}", bit_numbers(set))?,
        }
        if self.ignored != 0 {
            writeln!(f, "ignored here: {}", bit_numbers(self.ignored))?;
        }
        if self.answer.is_done() {
            writeln!(f, "normal operand {:#018x}", self.normal)?;
        }
        if self.answer == Answer::Refused(Refusal::NotCovered) {
            writeln!(f, "not covered here: {}", self.not_covered())?;
        }
        writeln!(f, "answer: {:#}", self.answer)?;
        writeln!(f, "{}", self.writes())
    }
}

impl Explanation {
    /// The fields by which an operand is not covered.
    fn not_covered(&self) -> String {
        let by = |&(field, value): &(&Field, u64)| {
            let shuffle = value != 0 && matches!(field.name, "x_shuffle" | "y_shuffle");
            let words = self.words(field, value).is_some_and(|words| words.ends_with(NOT_COVERED));
            (shuffle || words).then_some(if field.name == "skip_z" { "skip_x and skip_y, both 0" } else { field.short })
        };
        self.fields.iter().filter_map(by).collect::<Vec<_>>().join(", ")
    }

    /// The value of a field, 0 where the operand does not have it.
    fn get(&self, name: &str) -> u64 {
        self.fields.iter().find(|(field, _)| field.name == name).map_or(0, |&(_, value)| value)
    }

    /// The lanes that the step writes, row by row; rows that have the same lanes are told together.
    ///
    /// ```
    /// use amx::explain;
    /// let writes = |step: &str| explain(step.parse().unwrap()).unwrap().writes();
    /// assert_eq!(writes("vecint m1 widths=3 enable_mode=2 enable_value=5"), "writes z 0 lanes 0..2, z 1 lanes 0..1 (32 bits)");
    /// assert_eq!(writes("mac16 m1 z_row=1 x_enable_value=2"), "writes z 1, 3, 5 .. 63 (odd rows) lanes 0, 2, 4 .. 30 (16 bits)");
    /// assert_eq!(writes("vecint m1 enable_mode=6"), "writes nothing");
    /// ```
    pub fn writes(&self) -> String {
        let Some(bits) = self.lanes.first().map(|lane| 8 * lane.bytes) else {
            return "writes nothing".to_owned();
        };
        let mut groups: Vec<(Vec<usize>, Vec<usize>)> = Vec::new();
        for (row, lanes) in self.rows() {
            match groups.iter_mut().find(|(_, same)| *same == lanes) {
                Some((rows, _)) => rows.push(row),
                None => groups.push((vec![row], lanes)),
            }
        }
        let told = groups.iter().map(|(rows, lanes)| {
            let word = if lanes.len() == 1 { "lane" } else { "lanes" };
            format!("z {} {word} {}", listed_rows(rows), listed(lanes))
        });
        format!("writes {} ({bits} bits)", told.collect::<Vec<_>>().join(", "))
    }

    /// The rows that have enabled lanes, with those.
    fn rows(&self) -> BTreeMap<usize, Vec<usize>> {
        let mut rows: BTreeMap<usize, Vec<usize>> = BTreeMap::new();
        self.lanes.iter().for_each(|lane| rows.entry(lane.row).or_default().push(lane.lane));
        rows.values_mut().for_each(|lanes| lanes.sort_unstable());
        rows
    }

    /// What a field's value says, where the number alone does not. An ignored field says nothing.
    fn words(&self, field: &Field, value: u64) -> Option<String> {
        if self.ignored & field.mask() == field.mask() {
            return None;
        }
        match field.name {
            "skip_z" => Some(format!("the lane becomes {}", self.skipping_operation())),
            "alu_mode" => Some(self.operation(value)),
            "lane_widths" => Some(self.widths(value)),
            "indexed" if value == 1 && self.instruction == Instruction::Vecfp => Some(NOT_COVERED.to_owned()),
            "indexed" if value == 1 => Some(format!("as ALU mode 0, {}", self.operation(0))),
            // of what is not done, no lane and no row is told
            _ if !self.answer.is_done() => None,
            "x_enable_value" => Some(side_mask(self.get("x_enable_mode"), value, self.mask_lanes()[0])),
            "y_enable_value" => Some(side_mask(self.get("y_enable_mode"), value, self.mask_lanes()[1])),
            "enable_value" => Some(self.enabled(self.get("enable_mode"), value)),
            "broadcast_mode" => Some(broadcast(value, self.uses()).to_owned()),
            "z_row" => self.written_rows(value as usize),
            "rounding" if value == 1 && self.get("shift") == 0 => Some("no effect where the shift is 0".to_owned()),
            "saturate_signed" if self.get("saturate") == 0 => Some("no effect where nothing is clamped".to_owned()),
            name => self.load_words(name, value),
        }
    }

    /// The words of fields that tell where X and Y come from.
    fn load_words(&self, name: &str, value: u64) -> Option<String> {
        let Call { instruction, generation, operand } = self.call;
        let [reads_x, reads_y] = reference::reads(instruction, generation, operand);
        let [repeats_x, repeats_y] = reference::repeats(generation, operand);
        let [x_lanes, y_lanes] = self.mask_lanes();
        let (side, offset, reads, repeats, lanes) = match self.get("index_y") {
            1 => ("Y", "y_offset", reads_y, repeats_y, y_lanes),
            _ => ("X", "x_offset", reads_x, repeats_x, x_lanes),
        };
        match name {
            "x_offset" if !reads_x => Some("not read".to_owned()),
            "y_offset" if !reads_y => Some("not read".to_owned()),
            "index_register" | "index_4_bits" | "index_y" if !reads => Some(format!("{side} is not read")),
            "index_register" => Some(format!("bytes {}..{} of {side}", 64 * value, 64 * value + 63)),
            "index_4_bits" => Some("lowest bits first".to_owned()),
            "index_y" => Some(format!("element k of {side} is the register's element that the k-th index names")),
            name if self.get("indexed") == 1 && name == offset => {
                let index_bits = if self.get("index_4_bits") == 1 { 4 } else { 2 };
                Some(index_bytes(lanes * index_bits / 8, self.get("several") == 1, repeats))
            }
            _ => None,
        }
    }

    /// Whether the operation uses X and Y, also where they read as 0.
    fn uses(&self) -> [bool; 2] {
        let [x, y, _] = reference::uses(self.call.instruction, self.call.generation, self.call.operand);
        [x, y]
    }

    /// The lanes of the masks that are read at X's width and at Y's.
    fn mask_lanes(&self) -> [u64; 2] {
        let (x_bits, y_bits, _) = reference::lane_bits(self.call.instruction, self.call.operand);
        [x_bits, y_bits].map(|bits| 512 / bits as u64)
    }

    /// What a mac16 or an fms64 does with what it does not skip.
    fn skipping_operation(&self) -> &'static str {
        let skips = ["skip_x", "skip_y", "skip_z"].map(|name| self.get(name));
        if self.instruction == Instruction::Fms64 { fms64_operation(skips) } else { mac16_operation(skips) }
    }

    /// What a vecint or a vecfp does in an ALU mode.
    fn operation(&self, mode: u64) -> String {
        let Call { instruction, generation, operand } = self.call;
        let rounds = self.get("rounding") == 1 && self.get("shift") > 0;
        let operation = match self.instruction {
            Instruction::Vecfp => float_operation(mode),
            _ if mode == 4 && rounds => "(z + 2^(s-1)) >> s",
            _ => operation(mode),
        };
        let clamp = reference::clamp(instruction, operand);
        let clamp = clamp.map_or(String::new(), |(least, greatest)| format!(", clamped to {least}..{greatest}"));
        let but = match mode {
            10..=12 if self.generation == Generation::M1 => ", not on M1",
            _ if self.answer.is_done() && reference::forced_to_0(instruction, generation, operand) => ", overridden: the output is 0",
            _ => "",
        };
        format!("{operation}{clamp}{but}")
    }

    fn widths(&self, number: u64) -> String {
        let (instruction, operand) = (self.call.instruction, self.call.operand);
        let (x, y, z) = reference::lane_bits(instruction, operand);
        match (self.instruction, self.get("alu_mode")) {
            (Instruction::Vecfp, _) => float_widths(number).to_owned(),
            (_, 4) => match reference::clamp(instruction, operand) {
                Some((least, greatest)) => format!("Z {z} bits, saturation {}", (greatest - least + 1).ilog2()),
                None => format!("Z {z} bits"),
            },
            _ => format!("X {x}, Y {y}, Z {z} bits"),
        }
    }

    /// The lanes that an enable mode and value allow, and what else they do.
    fn enabled(&self, mode: u64, n: u64) -> String {
        let [x_lanes, y_lanes] = self.mask_lanes();
        let [uses_x, uses_y] = self.uses();
        let (x, y) = (vector_mask(mode, n, x_lanes), vector_mask(mode, n, y_lanes));
        let chooses = x != vector_mask(0, 0, x_lanes) && x != vector_mask(6, 0, x_lanes);
        let lanes = match x == y {
            true if chooses && x_lanes != y_lanes => format!("{x} at X's lane width and at Y's, both needed"),
            true => x,
            // the one side has no more lanes than that
            false if x_lanes > y_lanes => format!("{x} at X's lane width"),
            false => format!("{y} at Y's lane width"),
        };
        match (mode, n) {
            (0, 3) => lanes + ", and the output is 0",
            (0, 4) if uses_x => lanes + ", and X reads as 0",
            (0, 5) if uses_y => lanes + ", and Y reads as 0",
            (1, n) if uses_y => format!("{lanes}, and Y lane {} for every lane", n % y_lanes),
            _ => lanes,
        }
    }

    /// The rows that are written, where they are not the one of this number alone.
    fn written_rows(&self, number: usize) -> Option<String> {
        let rows: Vec<usize> = self.rows().into_keys().collect();
        match rows[..] {
            [row] if row == number => None,
            [] => Some("no row is written".to_owned()),
            [row] => Some(format!("row {row}")),
            [one, other] => Some(format!("rows {one} and {other}")),
            _ => Some(format!("rows {}", listed_rows(&rows))),
        }
    }
}

/// An enable mode and value of X or of Y, of so many lanes.
fn side_mask(mode: u64, n: u64, lanes: u64) -> String {
    match (mode, n) {
        (1, n) if n < lanes => format!("lane {n} alone"),
        _ => mask(mode, n, lanes),
    }
}

/// The lanes that an enable mode and value of a vector allow, of so many.
fn vector_mask(mode: u64, n: u64, lanes: u64) -> String {
    match (mode, n) {
        (0, 3..=5) | (1, _) => mask(0, 0, lanes),
        (4 | 5, 1..) => mask(mode - 2, n, lanes),
        (4.., _) => mask(1, 0, lanes),
        _ => mask(mode, n, lanes),
    }
}

fn mask(mode: u64, n: u64, lanes: u64) -> String {
    match (mode, n) {
        (0 | 2 | 3, 0) => "all lanes".to_owned(),
        (2 | 3, n) if n >= lanes => "all lanes".to_owned(),
        (0, 1) => "odd lanes".to_owned(),
        (0, 2) => "even lanes".to_owned(),
        (2, 1) => "the first lane".to_owned(),
        (3, 1) => "the last lane".to_owned(),
        (2, n) => format!("the first {n} lanes"),
        (3, n) => format!("the last {n} lanes"),
        _ => "no lane".to_owned(),
    }
}

/// What a broadcast mode does in a step that uses X, Y, both or neither.
fn broadcast(mode: u64, [uses_x, uses_y]: [bool; 2]) -> &'static str {
    match (mode, uses_x, uses_y) {
        (1, _, _) => "the output is 0",
        (_, false, false) => "no effect in ALU mode 4",
        (2, true, _) => "the same X for all vectors",
        (3, _, true) => "the same Y for all vectors",
        (4, true, _) => "X reads as 0",
        (5, _, true) => "Y reads as 0",
        (6, true, _) => "the same X for all vectors, and its lane 0 for all lanes",
        (7, _, true) => "the same Y for all vectors, and its lane 0 for all lanes",
        (_, true, true) => "X and Y of each vector",
        (_, true, false) => "X of each vector",
        (_, false, true) => "Y of each vector",
    }
}

/// Where the indices of an indexed load are, vector by vector: as many bytes as the offset advances by.
fn index_bytes(bytes: u64, several: bool, repeats: bool) -> String {
    let others = match (several, repeats) {
        (false, _) => String::new(),
        (true, false) => format!(", and for each next vector {bytes} bytes on"),
        (true, true) => ", the same for all vectors".to_owned(),
    };
    format!("{bytes} bytes of indices are there{others}")
}

fn mac16_operation(skips: [u64; 3]) -> &'static str {
    match skips {
        [0, 0, 0] => "z + ((x*y) >> s)",
        [0, 0, _] => "(x*y) >> s",
        [0, _, 0] => "z + (x >> s)",
        [0, _, _] => "x >> s",
        [_, 0, 0] => "z + (y >> s)",
        [_, 0, _] => "y >> s",
        [_, _, 0] => "z",
        _ => "0",
    }
}

fn fms64_operation(skips: [u64; 3]) -> &'static str {
    match skips {
        [0, 0, 0] => "z - x*y, not covered",
        [0, 0, _] => "-(x*y), not covered",
        [0, _, 0] => "z - x",
        [0, _, _] => "-x",
        [_, 0, 0] => "z - y",
        [_, 0, _] => "-y",
        [_, _, 0] => "z",
        _ => "-0",
    }
}

fn float_operation(mode: u64) -> &'static str {
    match mode {
        0 => "z + x*y, not covered",
        1 => "z - x*y, not covered",
        4 => "+0 where x <= 0, else y",
        5 => "min(x, z), not covered",
        7 => "max(x, z), not covered",
        10 => "x*y",
        11 => "z + x",
        12 => "z + y",
        _ => "none",
    }
}

fn float_widths(number: u64) -> &'static str {
    match number {
        4 => "X, Y and Z f32",
        7 => "X, Y and Z f64",
        _ => "X and Y floats of 16 bits, not covered",
    }
}

fn operation(mode: u64) -> &'static str {
    match mode {
        0 => "z + ((x*y) >> s)",
        1 => "z - ((x*y) >> s)",
        2 => "z + ((x+y) >> s)",
        3 => "z - ((x+y) >> s)",
        4 => "z >> s",
        5 => "z + ((x*y + 16384) >> 15)",
        6 => "z - ((x*y + 16384) >> 15)",
        10 => "(x*y) >> s",
        11 => "z + (x >> s)",
        12 => "z + (y >> s)",
        _ => "none",
    }
}

/// The Z lanes that a call enables, as text: a line for each row that has any, `#` for an enabled lane and `.` for one that is not.
///
/// The places are the [`mod@reference`]'s; the bytes in the first line are the proved step's answer.
///
/// ```
/// use amx::{Call, Generation, Mac16, SideEnable, lane_grid};
/// let call = Call::mac16(Generation::M1, Mac16::new().vector(true).z_row(7)?.x_enable(SideEnable::First(3))?);
/// assert_eq!(lane_grid(call), "done 6 bytes, lanes of 16 bits\nz 7   ###.............................\n");
/// # Ok::<(), amx::FieldError>(())
/// ```
pub fn lane_grid(call: Call) -> String {
    let answer = step(&mut State::new(), call, 0);
    let lanes = reference::lanes(call.instruction, call.generation, call.operand);
    let Some(bytes) = lanes.first().map(|lane| lane.bytes) else {
        return format!("{answer:#}\n");
    };
    let mut grid = vec![vec![b'.'; 64 / bytes]; 64];
    lanes.iter().for_each(|lane| grid[lane.row][lane.lane] = b'#');
    let rows = grid.iter().enumerate().filter(|(_, row)| row.contains(&b'#'));
    let rows: String = rows.map(|(number, row)| format!("z {number:<3} {}\n", String::from_utf8_lossy(row))).collect();
    format!("{answer:#}, lanes of {} bits\n{rows}", 8 * bytes)
}
