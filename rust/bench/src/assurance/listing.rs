//! The functions of an object file or archive as `objdump` lists them: whom they call, how much stack they take, and how
//! many instructions lie on their longest path.

use std::collections::BTreeMap;
use std::path::Path;
use std::process::Command;

/// Octets of a return address.
const RETURN: u64 = 8;

/// An instruction, in the syntax that `objdump` has by itself.
struct Instruction {
    address: u64,
    name: String,
    operands: String,
    /// What a relocation says that the instruction names.
    symbol: Option<String>,
}

#[derive(Default)]
pub struct Function {
    instructions: Vec<Instruction>,
}

pub struct Listing {
    functions: BTreeMap<String, Function>,
}

/// The longest path of a function when no loop goes back to its start, and for each loop the longest turn.
#[derive(Default)]
pub struct Paths {
    straight: u64,
    turns: Vec<u64>,
}

impl Paths {
    /// Returns the greatest number of instructions where no loop goes back more often than this.
    pub fn bound(&self, turns: u64) -> u64 {
        self.straight + turns * self.turns.iter().sum::<u64>()
    }
}

fn output(program: &str, words: &[&str], file: &Path) -> Result<String, String> {
    let ran = Command::new(program).args(words).arg(file).output();
    let ran = ran.map_err(|error| format!("{program}: {error}"))?;
    if !ran.status.success() {
        let said = String::from_utf8_lossy(&ran.stderr);
        return Err(format!("{program} {}: {said}", file.display()));
    }
    String::from_utf8(ran.stdout).map_err(|error| error.to_string())
}

/// Returns the symbols of a file of the types that `wanted` has letters for, as `nm` types them.
pub fn symbols(file: &Path, wanted: &str) -> Result<Vec<String>, String> {
    let said = output("nm", &[], file)?;
    let named = said.lines().filter_map(|line| {
        let mut words = line.split_whitespace().rev();
        let (name, kind) = (words.next()?, words.next()?);
        (kind.len() == 1 && wanted.contains(kind)).then(|| name.to_string())
    });
    Ok(named.collect())
}

/// Returns the number after "0x", or after "$0x", that a text starts with.
fn hexadecimal(text: &str) -> Option<u64> {
    let digits = text.trim_start_matches('$').strip_prefix("0x")?;
    let end = digits
        .find(|c: char| !c.is_ascii_hexdigit())
        .unwrap_or(digits.len());
    u64::from_str_radix(&digits[..end], 16).ok()
}

/// What a line of a listing is.
enum Item<'a> {
    /// A function's name.
    Start(&'a str),
    Instruction(Instruction),
    /// The symbol that the instruction before names.
    Relocation(&'a str),
}

/// Reads a line: "0000 <name>:", "  d2:	call   d7 <..>" or "	d3: R_X86_64_PLT32	.text.name-0x4"; none of these else.
fn item(line: &str) -> Option<Item<'_>> {
    if let Some(name) = line.strip_suffix(">:") {
        return Some(Item::Start(name.split_once(" <")?.1));
    }
    let (address, rest) = line.trim_start().split_once(':')?;
    let address = u64::from_str_radix(address, 16).ok()?;
    let rest = rest.trim();
    if rest.starts_with("R_X86_64") {
        let symbol = rest.split_once('\t')?.1;
        let end = symbol.rfind("-0x").or(symbol.rfind("+0x"));
        let symbol = &symbol[..end.unwrap_or(symbol.len())];
        return Some(Item::Relocation(
            symbol.strip_prefix(".text.").unwrap_or(symbol),
        ));
    }
    let (name, operands) = rest.split_once(' ').unwrap_or((rest, ""));
    Some(Item::Instruction(Instruction {
        address,
        name: name.into(),
        operands: operands.trim().into(),
        symbol: None,
    }))
}

impl Listing {
    pub fn of(file: &Path) -> Result<Self, String> {
        let said = output("objdump", &["-dr", "--no-show-raw-insn"], file)?;
        let mut functions: BTreeMap<String, Function> = BTreeMap::new();
        let mut current = String::new();
        for item in said.lines().filter_map(item) {
            if let Item::Start(name) = item {
                current = name.into();
            }
            let instructions = &mut functions.entry(current.clone()).or_default().instructions;
            match item {
                Item::Start(_) => {}
                Item::Instruction(instruction) => instructions.push(instruction),
                Item::Relocation(symbol) => {
                    let last = instructions.last_mut();
                    last.ok_or("a relocation of nothing")?.symbol = Some(symbol.into());
                }
            }
        }
        if functions.is_empty() || functions.values().any(|f| f.instructions.is_empty()) {
            return Err(format!("{}: no functions, or empty ones", file.display()));
        }
        Ok(Listing { functions })
    }

    pub fn names(&self) -> impl Iterator<Item = &str> {
        self.functions.keys().map(String::as_str)
    }

    /// Returns the deepest stack of a call of a function, its return address included, and refuses recursion. What functions
    /// elsewhere take is left out, but for their return address.
    pub fn stack(&self, name: &str) -> Result<u64, String> {
        self.stack_below(name, &mut vec![])
    }

    fn stack_below(&self, name: &str, above: &mut Vec<String>) -> Result<u64, String> {
        let Some(function) = self.functions.get(name) else {
            return Ok(RETURN);
        };
        if above.iter().any(|caller| caller == name) {
            return Err(format!("{name} calls itself"));
        }
        above.push(name.into());
        let mut below = function.below_pointer();
        for callee in function
            .callees()
            .map_err(|error| format!("{name}: {error}"))?
        {
            below = below.max(self.stack_below(callee, above)?);
        }
        above.pop();
        Ok(RETURN
            + function
                .frame()
                .map_err(|error| format!("{name}: {error}"))?
            + below)
    }

    /// Returns the longest paths of a function and of those it calls, and refuses recursion; what functions elsewhere take is
    /// left out.
    pub fn paths(&self, name: &str) -> Result<Paths, String> {
        self.stack(name)?;
        let function = self
            .functions
            .get(name)
            .ok_or(format!("no function '{name}'"))?;
        let mut calls = vec![];
        for instruction in &function.instructions {
            let callee = instruction
                .callee()
                .filter(|callee| self.functions.contains_key(*callee));
            calls.push(callee.map_or(Ok(Paths::default()), |callee| self.paths(callee))?);
        }
        function
            .paths(&calls)
            .map_err(|error| format!("{name}: {error}"))
    }
}

impl Instruction {
    /// The function that is called, or jumped to as the last thing.
    fn callee(&self) -> Option<&str> {
        let symbol = self.symbol.as_deref();
        symbol.filter(|_| self.name.starts_with("call") || self.name == "jmp")
    }

    /// The address that a jump within the function goes to.
    fn target(&self) -> Option<u64> {
        let digits = self.operands.split_whitespace().next()?;
        u64::from_str_radix(digits, 16).ok()
    }

    /// What the instruction takes from the stack pointer; an error for one that moves it in another way.
    fn taken(&self) -> Result<u64, String> {
        let (from, to) = self
            .operands
            .rsplit_once(',')
            .unwrap_or(("", &self.operands));
        match self.name.as_str() {
            name if name.starts_with("push") => Ok(8),
            "sub" if to == "%rsp" => hexadecimal(from).ok_or(format!("sub {}", self.operands)),
            // A number that is negative when it is added.
            "add" if to == "%rsp" => {
                Ok(hexadecimal(from).map_or(0, |n| (n as i64).min(0).unsigned_abs()))
            }
            "cmp" | "test" => Ok(0),
            _ if to == "%rsp" => Err(format!("{} {}", self.name, self.operands)),
            _ => Ok(0),
        }
    }
}

impl Function {
    fn callees(&self) -> Result<Vec<&str>, String> {
        let calls = self
            .instructions
            .iter()
            .filter(|i| i.name.starts_with("call"));
        if let Some(indirect) = calls.clone().find(|i| i.symbol.is_none()) {
            return Err(format!("a call of {}", indirect.operands));
        }
        Ok(self
            .instructions
            .iter()
            .filter_map(Instruction::callee)
            .collect())
    }

    /// What the function takes from the stack pointer. A large frame is taken page by page in a loop that ends at %r11.
    fn frame(&self) -> Result<u64, String> {
        let mut frame = 0;
        let mut by_pages = false;
        for pair in self.instructions.windows(2) {
            let [before, i] = pair else { continue };
            if before.name == "mov" && before.operands == "%rsp,%r11" && i.name == "sub" {
                frame += hexadecimal(&i.operands).ok_or("a frame of unknown size")?;
                by_pages = true;
            }
        }
        for i in &self.instructions {
            let page = by_pages && i.name == "sub" && i.operands == "$0x1000,%rsp";
            by_pages &= !page;
            frame += if page { 0 } else { i.taken()? };
        }
        Ok(frame)
    }

    /// How far below the stack pointer the function reads or writes.
    fn below_pointer(&self) -> u64 {
        let below = self.instructions.iter().filter_map(|i| {
            let (before, _) = i.operands.split_once("(%rsp")?;
            hexadecimal(before.rsplit(',').next()?.strip_prefix('-')?)
        });
        below.max().unwrap_or(0)
    }

    /// The instructions that may follow one. A jump through a table may go to any after it.
    fn next(&self, at: usize) -> Result<Vec<usize>, String> {
        let i = &self.instructions[at];
        let after = Some(at + 1).filter(|next| *next < self.instructions.len());
        let jump = || -> Result<usize, String> {
            let target = i.target().ok_or(format!("a jump to {}", i.operands))?;
            let found = self
                .instructions
                .binary_search_by_key(&target, |i| i.address);
            found.map_err(|_| format!("a jump to {target:x}, between instructions"))
        };
        Ok(match i.name.as_str() {
            "ret" | "ud2" | "hlt" => vec![],
            "jmp" if i.symbol.is_some() => vec![],
            "jmp" if i.operands.starts_with('*') => (at + 1..self.instructions.len()).collect(),
            name if name.starts_with('j') && i.symbol.is_some() => {
                return Err(format!("a jump to another function at {:x}", i.address));
            }
            "jmp" => vec![jump()?],
            name if name.starts_with('j') => after.into_iter().chain([jump()?]).collect(),
            _ => after.into_iter().collect(),
        })
    }

    /// Longest paths, where an instruction also takes what the function that it calls does.
    fn paths(&self, calls: &[Paths]) -> Result<Paths, String> {
        let next: Vec<Vec<usize>> = (0..calls.len())
            .map(|at| self.next(at))
            .collect::<Result<_, _>>()?;
        let costs: Vec<u64> = calls.iter().map(|call| 1 + call.straight).collect();
        let (order, back) = walk(&next);
        let mut turns: Vec<u64> = calls.iter().flat_map(|call| call.turns.clone()).collect();
        for &(latch, head) in &back {
            let to_latch = longest(&next, &costs, &order, &back, Some(latch));
            // What lies on a way from the head to the latch is in the loop: no other head, no call of what has loops.
            let inside = |at: usize| (1..=to_latch[head]).contains(&to_latch[at]);
            let looping = (0..calls.len()).filter(|at| !calls[*at].turns.is_empty());
            let mut heads = back
                .iter()
                .map(|(_, other)| *other)
                .filter(|other| *other != head);
            if heads.any(inside) || looping.into_iter().any(inside) {
                let at = self.instructions[head].address;
                return Err(format!("a loop within the loop at {at:x}"));
            }
            turns.push(to_latch[head]);
        }
        let straight = longest(&next, &costs, &order, &back, None)[0];
        Ok(Paths { straight, turns })
    }
}

/// Walks a graph from 0: its nodes, each after all that follow it, and the edges that close a loop.
fn walk(next: &[Vec<usize>]) -> (Vec<usize>, Vec<(usize, usize)>) {
    let (mut order, mut back) = (vec![], vec![]);
    // 0 for a node not met, 1 for one on the way here, 2 for one that is done.
    let mut state = vec![0; next.len()];
    let mut way = vec![(0, 0)];
    state[0] = 1;
    while let Some((node, edge)) = way.last_mut() {
        let (from, to) = (*node, next[*node].get(*edge).copied());
        *edge += 1;
        match to {
            Some(to) if state[to] == 0 => {
                state[to] = 1;
                way.push((to, 0));
            }
            Some(to) if state[to] == 1 => back.push((from, to)),
            Some(_) => {}
            None => {
                state[from] = 2;
                order.push(from);
                way.pop();
            }
        }
    }
    (order, back)
}

/// For each node the longest path from it, loops left out: to an end, or to the node `to`; 0 where there is none.
fn longest(
    next: &[Vec<usize>],
    costs: &[u64],
    order: &[usize],
    back: &[(usize, usize)],
    to: Option<usize>,
) -> Vec<u64> {
    let mut lengths = vec![0; next.len()];
    for &node in order {
        let follow = next[node]
            .iter()
            .filter(|after| !back.contains(&(node, **after)));
        let best = follow.map(|after| lengths[*after]).max().unwrap_or(0);
        let ends = to.map_or(next[node].is_empty(), |to| to == node);
        if ends || best > 0 {
            lengths[node] = costs[node] + if to == Some(node) { 0 } else { best };
        }
    }
    lengths
}
