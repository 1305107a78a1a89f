//! The machine code of an archive: its bytes of code and constants, and of each exported function
//! the bytes and the deepest stack. It reads what GNU objdump prints of x86-64 ELF.
//!
//! A function is walked along all its ways, and at each instruction the depth of the stack is
//! known from the pushes, pops and moves of the stack pointer before it. What lies below the stack
//! pointer (the red zone) counts, and so does the return address of each call, that of the exported
//! function itself among them. A jump to another function is a call without a new return address.
//! Assumed: a jump through a register is a switch inside its function, and the stack pointer stands
//! as deep at each of its targets as at the jump. Where no bound can be read off, that is said.

use std::collections::{BTreeSet, HashMap};
use std::fmt::Write;
use std::process::Command;

const RETURN_ADDRESS: i64 = 8;
/// A way deeper than this is taken to have no bound.
const TOO_DEEP: i64 = 1 << 24;

pub struct Code {
    pub code: u64,
    pub constants: u64,
    pub writable: u64,
    pub exported: Vec<Exported>,
}

pub struct Exported {
    pub name: String,
    pub bytes: u64,
    /// With every function of the archive that it reaches.
    pub bytes_reached: u64,
    /// None: no bound can be read off, and the remarks say why.
    pub stack: Option<u64>,
    /// The functions of the deepest way.
    pub way: Vec<String>,
    /// The functions reached that are not in the archive.
    pub outside: BTreeSet<String>,
    pub remarks: BTreeSet<String>,
}

/// Reads an archive or an object file.
pub fn read(file: &str) -> Result<Code, String> {
    let (mut code, mut constants, mut writable) = (0, 0, 0);
    for line in objdump(&["-h", "-w"], file)?.lines() {
        let fields: Vec<&str> = line.split_whitespace().collect();
        if fields.len() < 7 || fields[0].parse::<u32>().is_err() || !line.contains("ALLOC") {
            continue;
        }
        let bytes = hexadecimal(fields[2])?;
        if line.contains("CODE") {
            code += bytes;
        } else if line.contains("READONLY") {
            constants += bytes;
        } else {
            writable += bytes;
        }
    }
    let program = Program::read(file)?;
    let functions = &program.functions;
    let frames: Vec<Frame> = (0..functions.len()).map(|i| program.walk(i)).collect();
    let mut depths = vec![None; frames.len()];
    let global = (0..functions.len()).filter(|&i| functions[i].global);
    let exported = global.map(|i| program.told(i, &frames, &mut depths));
    let exported = exported.collect();
    Ok(Code {
        code,
        constants,
        writable,
        exported,
    })
}

impl Code {
    pub fn markdown(&self) -> String {
        let mut text = String::from("| in the archive | bytes |\n|---|---:|\n");
        writeln!(text, "| code | {} |", self.code).unwrap();
        writeln!(text, "| constants | {} |", self.constants).unwrap();
        writeln!(text, "| writable data | {} |", self.writable).unwrap();
        text += "\n| function | its code | with all it calls | stack | deepest way | outside |\n";
        text += "|---|---:|---:|---:|---|---|\n";
        for function in &self.exported {
            let stack = function.stack.map_or("no bound".into(), |s| s.to_string());
            let way = function.way.join(" > ");
            let outside: Vec<&str> = function.outside.iter().map(String::as_str).collect();
            let outside = outside.join(", ");
            let (name, bytes, reached) = (&function.name, function.bytes, function.bytes_reached);
            let numbers = format!("{name} | {bytes} | {reached} | {stack}");
            writeln!(text, "| {numbers} | {way} | {outside} |").unwrap();
        }
        for function in &self.exported {
            for remark in &function.remarks {
                writeln!(text, "\nNo bound for {}: {remark}.", function.name).unwrap();
            }
        }
        text
    }
}

struct Instruction {
    at: u64,
    op: String,
    operands: String,
    /// The symbol of its relocation, and the distance from it.
    symbol: Option<(String, i64)>,
}

struct Function {
    name: String,
    global: bool,
    /// The object file of the archive, by number, and its section.
    home: (usize, String),
    from: u64,
    to: u64,
}

struct Program {
    functions: Vec<Function>,
    code: HashMap<(usize, String), Vec<Instruction>>,
}

#[derive(Clone)]
enum Target {
    Inside(usize),
    Outside(String),
}

/// What a function does to the stack by itself. Depths begin with its return address.
#[derive(Default)]
struct Frame {
    deepest: i64,
    /// The depth at each call, without the return address that it pushes.
    calls: Vec<(i64, Target)>,
    unbounded: bool,
    remarks: BTreeSet<String>,
}

/// The depth of a function with what it calls, and the next function of its deepest way.
#[derive(Clone, Copy)]
enum Depth {
    BeingFound,
    Found {
        bytes: Option<i64>,
        next: Option<usize>,
    },
}

impl Program {
    fn read(file: &str) -> Result<Program, String> {
        let mut functions = Vec::new();
        let mut object = 0;
        for line in objdump(&["-t"], file)?.lines() {
            if line.contains("file format ") {
                object += 1;
            }
            // ADDRESS FLAGS SECTION, a tab, SIZE NAME
            let Some((left, right)) = line.split_once('\t') else {
                continue;
            };
            let (flags, section) = (left.get(17..24), left.get(25..));
            let (Some(flags), Some(section)) = (flags, section) else {
                continue;
            };
            if !flags.ends_with('F') || section == "*UND*" {
                continue;
            }
            let (size, name) = right.split_once(' ').ok_or("a symbol without a name")?;
            let from = hexadecimal(&left[..16])?;
            functions.push(Function {
                name: name.trim_start().trim_start_matches(".hidden ").to_string(),
                global: !flags.starts_with('l'),
                home: (object, section.to_string()),
                from,
                to: from + hexadecimal(size)?,
            });
        }
        let mut code: HashMap<_, Vec<Instruction>> = HashMap::new();
        let mut home = (0, String::new());
        for line in objdump(&["-d", "-r", "-w", "--no-show-raw-insn"], file)?.lines() {
            if line.contains("file format ") {
                home.0 += 1;
            } else if let Some(section) = line.strip_prefix("Disassembly of section ") {
                home.1 = section.trim_end_matches(':').to_string();
            } else if let Some((at, text)) = line.split_once(":\t") {
                let at = hexadecimal(at.trim())?;
                let instruction = Instruction::read(at, text);
                code.entry(home.clone()).or_default().push(instruction);
            }
        }
        Ok(Program { functions, code })
    }

    /// The function that a place of a section lies in.
    fn holding(&self, home: &(usize, String), at: u64) -> Option<usize> {
        self.functions
            .iter()
            .position(|f| f.home == *home && f.from <= at && at < f.to)
    }

    fn named(&self, object: usize, name: &str) -> Option<usize> {
        let local = |f: &Function| f.home.0 == object && f.name == name;
        let global = |f: &Function| f.global && f.name == name;
        let functions = &self.functions;
        let found = functions.iter().position(local);
        found.or_else(|| functions.iter().position(global))
    }

    /// Where a call or jump leads: a function and the place in its section, or a name outside. None
    /// where that is in a register.
    fn target(&self, from: &Function, instruction: &Instruction) -> Option<(Target, u64)> {
        let outside = |name: &str| Some((Target::Outside(name.to_string()), 0));
        if let Some((symbol, distance)) = &instruction.symbol {
            let home = (from.home.0, symbol.clone());
            if self.code.contains_key(&home) {
                let at = *distance as u64;
                let inside = self.holding(&home, at).map(|i| (Target::Inside(i), at));
                return inside.or_else(|| outside(symbol));
            }
            return match self.named(from.home.0, symbol) {
                Some(i) => Some((Target::Inside(i), self.functions[i].from)),
                None => outside(symbol),
            };
        }
        let at = instruction.operands.split(' ').next()?;
        let at = u64::from_str_radix(at, 16).ok()?;
        let inside = self.holding(&from.home, at);
        inside.map(|i| (Target::Inside(i), at))
    }

    /// Follows a function along all its ways.
    fn walk(&self, me: usize) -> Frame {
        let mut frame = Frame::default();
        let function = &self.functions[me];
        let section = self.code.get(&function.home);
        let inside = |i: &&Instruction| function.from <= i.at && i.at < function.to;
        let code: Vec<&Instruction> = section.into_iter().flatten().filter(inside).collect();
        if code.is_empty() {
            frame.no_bound("has no code to read".into());
        }
        let index: HashMap<u64, usize> = code.iter().enumerate().map(|(i, c)| (c.at, i)).collect();
        // The deepest that each instruction was reached with.
        let mut reached = vec![0; code.len()];
        let mut todo = vec![(0, RETURN_ADDRESS, None)];
        let mut switch: Option<(i64, Option<i64>)> = None;
        let mut switched = false;
        loop {
            let Some((i, depth, base)) = todo.pop() else {
                // Code that only a switch leads to.
                let unread = (0..code.len()).find(|&i| reached[i] == 0 && !code[i].is_padding());
                match (switch, unread) {
                    (Some((depth, base)), Some(i)) => {
                        switched = true;
                        todo.push((i, depth, base));
                        continue;
                    }
                    _ => break,
                }
            };
            if i >= code.len() || depth <= reached[i] {
                continue;
            }
            if depth > TOO_DEEP {
                frame.no_bound("lets the stack grow in a loop".into());
                return frame;
            }
            reached[i] = depth;
            let instruction = code[i];
            let Some((after, base)) = instruction.moves(depth, base) else {
                let Instruction { op, operands, .. } = instruction;
                frame.no_bound(format!("moves the stack pointer by `{op} {operands}`"));
                return frame;
            };
            frame.deepest = frame.deepest.max(depth).max(after);
            frame.deepest = frame.deepest.max(instruction.lowest(depth, base));
            let is_call = instruction.op.starts_with("call");
            if !is_call && !instruction.op.starts_with('j') {
                if !instruction.ends() {
                    todo.push((i + 1, after, base));
                }
                continue;
            }
            match self.target(function, instruction) {
                Some((target, _)) if is_call => frame.calls.push((depth, target)),
                Some((Target::Inside(i), at)) if i == me && index.contains_key(&at) => {
                    todo.push((index[&at], depth, base));
                }
                // A jump to another function takes over the return address.
                Some((target, _)) => frame.calls.push((depth - RETURN_ADDRESS, target)),
                None if is_call => frame.no_bound("calls through a register".into()),
                None => switch = switch.max(Some((depth, base))),
            }
            if !instruction.ends() {
                todo.push((i + 1, depth, base));
            }
        }
        if switch.is_some() && !switched {
            frame.no_bound("jumps through a register, and that is no switch".into());
        }
        frame
    }

    /// The depth of a function with all that it calls.
    fn depth(&self, i: usize, frames: &[Frame], depths: &mut Vec<Option<Depth>>) -> Option<i64> {
        match depths[i] {
            Some(Depth::Found { bytes, .. }) => return bytes,
            Some(Depth::BeingFound) => return None, // it calls itself
            None => depths[i] = Some(Depth::BeingFound),
        }
        let frame = &frames[i];
        let mut bytes = Some(frame.deepest).filter(|_| !frame.unbounded);
        let mut next = None;
        for (depth, target) in &frame.calls {
            let below = match target {
                Target::Inside(callee) => self.depth(*callee, frames, depths),
                Target::Outside(_) => Some(RETURN_ADDRESS),
            };
            let whole = below.map(|below| depth + below);
            if whole.is_none() || bytes.is_some_and(|bytes| whole > Some(bytes)) {
                bytes = bytes.and(whole);
                next = match target {
                    Target::Inside(callee) => Some(*callee),
                    Target::Outside(_) => None,
                };
            }
        }
        depths[i] = Some(Depth::Found { bytes, next });
        bytes
    }

    fn told(&self, i: usize, frames: &[Frame], depths: &mut Vec<Option<Depth>>) -> Exported {
        let function = &self.functions[i];
        let stack = self.depth(i, frames, depths).map(|bytes| bytes as u64);
        let mut told = Exported {
            name: function.name.clone(),
            bytes: function.to - function.from,
            bytes_reached: 0,
            stack,
            way: Vec::new(),
            outside: BTreeSet::new(),
            remarks: BTreeSet::new(),
        };
        let mut at = Some(i);
        while let Some(i) = at {
            let name = self.functions[i].name.clone();
            if told.way.contains(&name) {
                break;
            }
            told.way.push(name);
            at = match depths[i] {
                Some(Depth::Found { next, .. }) => next,
                _ => None,
            };
        }
        let mut seen = BTreeSet::new();
        self.reach(i, frames, &mut seen, &mut Vec::new(), &mut told);
        for i in seen {
            told.bytes_reached += self.functions[i].to - self.functions[i].from;
        }
        told
    }

    /// Gathers what a function reaches.
    fn reach(
        &self,
        i: usize,
        frames: &[Frame],
        seen: &mut BTreeSet<usize>,
        way: &mut Vec<usize>,
        told: &mut Exported,
    ) {
        let name = &self.functions[i].name;
        if way.contains(&i) {
            told.remarks.insert(format!("{name} calls itself"));
        }
        if !seen.insert(i) {
            return;
        }
        way.push(i);
        for remark in &frames[i].remarks {
            told.remarks.insert(format!("{name} {remark}"));
        }
        for (_, target) in &frames[i].calls {
            match target {
                Target::Inside(callee) => self.reach(*callee, frames, seen, way, told),
                Target::Outside(name) => {
                    told.outside.insert(name.clone());
                }
            }
        }
        way.pop();
    }
}

impl Frame {
    fn no_bound(&mut self, why: String) {
        self.unbounded = true;
        self.remarks.insert(why);
    }
}

impl Instruction {
    /// Its text is the operation, its operands and perhaps a relocation: PLACE: KIND SYMBOL.
    fn read(at: u64, text: &str) -> Instruction {
        let mut fields = text.split('\t');
        let mut line = fields.next().unwrap_or("").trim();
        for prefix in ["notrack ", "bnd ", "repz ", "rep "] {
            line = line.strip_prefix(prefix).unwrap_or(line).trim_start();
        }
        let (op, operands) = line.split_once(' ').unwrap_or((line, ""));
        let operands = operands.trim();
        let kind = fields.next().unwrap_or("");
        let led = kind.contains("R_X86_64_") && !operands.starts_with('*');
        let symbol = match fields.next() {
            Some(symbol) if led || kind.contains("GOTPCREL") => {
                // The distance is counted from the end of the four bytes that it fills.
                let cut = symbol.rfind("+0x").or(symbol.rfind("-0x"));
                let (symbol, distance) = symbol.split_at(cut.unwrap_or(symbol.len()));
                let distance = number(distance.trim_start_matches('+')).unwrap_or(0);
                Some((symbol.to_string(), distance + 4))
            }
            _ => None,
        };
        Instruction {
            at,
            op: op.to_string(),
            operands: operands.to_string(),
            symbol,
        }
    }

    fn is_padding(&self) -> bool {
        let padding = |op: &str| op.starts_with("nop") || op == "int3";
        let exchange = self.op == "xchg" && self.operands == "%ax,%ax";
        padding(&self.op) || exchange || ["data16", "cs"].contains(&self.op.as_str())
    }

    /// Whether the next instruction is not run after it.
    fn ends(&self) -> bool {
        ["ret", "retq", "jmp", "jmpq", "ud2", "hlt", "int3"].contains(&self.op.as_str())
    }

    /// The depth after it, and the depth that rbp stands at where rbp is the frame's base. None
    /// where they can't be told.
    fn moves(&self, depth: i64, base: Option<i64>) -> Option<(i64, Option<i64>)> {
        let operands = self.operands.as_str();
        let (source, destination) = operands.rsplit_once(',').unwrap_or(("", operands));
        let immediate = source.strip_prefix('$').and_then(number);
        let off = |register: &str| {
            let place = source.strip_suffix(')')?.split_once('(')?;
            if place.1 == register {
                number(place.0)
            } else {
                None
            }
        };
        match (self.op.trim_end_matches('q'), destination) {
            ("pop", "%rsp") => None,
            ("pop", "%rbp") => Some((depth - 8, None)),
            ("pop" | "popf", _) => Some((depth - 8, base)),
            ("push" | "pushf", _) => Some((depth + 8, base)),
            ("leave", _) => Some((base? - 8, None)),
            ("sub", "%rsp") => Some((depth + immediate?, base)),
            ("add", "%rsp") => Some((depth - immediate?, base)),
            ("lea", "%rsp") => match off("%rsp") {
                Some(up) => Some((depth - up, base)),
                None => Some((base? - off("%rbp")?, base)),
            },
            ("mov", "%rsp") if source == "%rbp" => Some((base?, base)),
            // The stack was a multiple of 16 before the call; above that the worst is taken.
            ("and", "%rsp") => {
                let to = -immediate?;
                let even = (depth + 15) / 16 * 16;
                Some((even + (to - 16).max(0), base))
            }
            (op, "%rsp") if !["cmp", "test"].contains(&op) => None,
            ("mov", "%rbp") if source == "%rsp" => Some((depth, Some(depth))),
            ("cmp" | "test", _) => Some((depth, base)),
            (_, "%rbp" | "%ebp") => Some((depth, None)),
            _ => Some((depth, base)),
        }
    }

    /// The depth of the lowest place that it names off the stack pointer or the frame's base.
    fn lowest(&self, depth: i64, base: Option<i64>) -> i64 {
        let mut lowest = depth;
        for (register, stands) in [("(%rsp", Some(depth)), ("(%rbp", base)] {
            let Some(stands) = stands else { continue };
            for (at, _) in self.operands.match_indices(register) {
                let before = &self.operands[..at];
                let cut = before.rfind(|c: char| !c.is_ascii_hexdigit() && c != 'x' && c != '-');
                let distance = number(&before[cut.map_or(0, |cut| cut + 1)..]).unwrap_or(0);
                lowest = lowest.max(stands - distance);
            }
        }
        lowest
    }
}

fn objdump(options: &[&str], file: &str) -> Result<String, String> {
    let mut command = Command::new("objdump");
    command.args(options).arg(file).env("LC_ALL", "C");
    let made = command.output().map_err(|e| format!("objdump: {e}"))?;
    if !made.status.success() {
        return Err(String::from_utf8_lossy(&made.stderr).into_owned());
    }
    Ok(String::from_utf8_lossy(&made.stdout).into_owned())
}

fn hexadecimal(text: &str) -> Result<u64, String> {
    u64::from_str_radix(text, 16).map_err(|_| format!("no hexadecimal number: {text}"))
}

/// A number as objdump writes it; none is 0. One of 64 bits goes round.
fn number(text: &str) -> Option<i64> {
    if text.is_empty() {
        return Some(0);
    }
    let (sign, digits) = match text.strip_prefix('-') {
        Some(digits) => (-1, digits),
        None => (1, text),
    };
    let digits = digits.strip_prefix("0x")?;
    Some(sign * u64::from_str_radix(digits, 16).ok()? as i64)
}
