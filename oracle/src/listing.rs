//! Listings of document 01: the routine they hold, word that there is none (request A3), or the exporter's refusal (1 to 6,
//! and 33 by request A5) and its place.

#[derive(Clone, Debug, Eq, PartialEq)]
pub enum Instruction {
    Pop,
    CopyLoc(u8),
    MoveLoc(u8),
    StLoc(u8),
    FreezeRef,
    Eq,
    ReadRef,
    WriteRef,
    BorrowLoc { local: u8, mutable: bool },
    BorrowField { number: u16, mutable: bool },
    BorrowGlobal { number: u16, mutable: bool },
    MoveFrom(u16),
    Call { parameters: u8, acquired: Vec<u16>, returns: Vec<u8> },
    Ret,
    Values { takes: u16, pushes: u16, token: u8 },
    MoveTo,
    Vector { takes: u8, mutable: bool, pushes: u8, token: u8 },
    Element { mutable: bool },
}

#[derive(Clone, Debug, Eq, PartialEq)]
pub struct Block {
    pub entry: u16,
    pub exit: u16,
    pub successors: Vec<u16>,
}

#[derive(Clone, Debug, Default, Eq, PartialEq)]
pub struct Routine {
    pub parameters: Vec<u8>,
    /// All locals, the parameters among them.
    pub locals: u8,
    pub returns: Vec<u8>,
    pub blocks: Vec<Block>,
    pub code: Vec<Instruction>,
}

impl Routine {
    /// Some block has two back edges, or one to a block listed later. Where neither is so, no error vanishes while its
    /// block does not run again.
    pub fn jumps(&self) -> bool {
        let place = |entry: u16| self.blocks.iter().position(|b| b.entry == entry);
        self.blocks.iter().enumerate().any(|(at, block)| {
            let back: Vec<u16> = block.successors.iter().copied().filter(|s| *s <= block.entry).collect();
            back.len() > 1 || back.iter().any(|s| place(*s) > Some(at))
        })
    }
}

/// Why there is no routine.
#[derive(Clone, Copy, Debug, Eq, PartialEq)]
pub enum Unread {
    /// There is no byte: an empty cell.
    Nothing,
    Refused {
        number: u32,
        place: u32,
    },
}

enum Record {
    Function { parameters: Vec<u8>, locals: u8, returns: Vec<u8> },
    Block(Block),
    Instruction(Instruction),
}

/// A record's body as it is read. `None` is refusal 3.
struct Body<'a>(&'a [u8]);

impl Body<'_> {
    fn byte(&mut self) -> Option<u8> {
        let (first, rest) = self.0.split_first()?;
        self.0 = rest;
        Some(*first)
    }

    fn up_to(&mut self, most: u8) -> Option<u8> {
        self.byte().filter(|b| *b <= most)
    }

    fn word(&mut self) -> Option<u16> {
        Some(u16::from_le_bytes([self.byte()?, self.byte()?]))
    }

    fn flag(&mut self) -> Option<bool> {
        Some(self.up_to(1)? == 1)
    }

    fn tokens(&mut self, n: u8) -> Option<Vec<u8>> {
        (0..n).map(|_| self.up_to(2)).collect()
    }

    fn words(&mut self, n: u8) -> Option<Vec<u16>> {
        (0..n).map(|_| self.word()).collect()
    }

    fn counted_tokens(&mut self) -> Option<Vec<u8>> {
        let n = self.byte()?;
        self.tokens(n)
    }

    fn record(&mut self, kind: u16, locals: u8) -> Option<Record> {
        use Instruction::*;
        let instruction = match kind {
            1 => {
                let (p, locals) = (self.byte()?, self.byte()?);
                let parameters = self.tokens(p)?;
                let returns = self.counted_tokens()?;
                return (p <= locals).then_some(Record::Function { parameters, locals, returns });
            }
            2 => {
                let (entry, exit, n) = (self.word()?, self.word()?, self.up_to(2)?);
                return Some(Record::Block(Block { entry, exit, successors: self.words(n)? }));
            }
            10 => Pop,
            11 => CopyLoc(self.local(locals)?),
            12 => MoveLoc(self.local(locals)?),
            13 => StLoc(self.local(locals)?),
            14 => FreezeRef,
            15 => Eq,
            16 => ReadRef,
            17 => WriteRef,
            18 => BorrowLoc { local: self.local(locals)?, mutable: self.flag()? },
            19 => BorrowField { number: self.word()?, mutable: self.flag()? },
            20 => BorrowGlobal { number: self.word()?, mutable: self.flag()? },
            21 => MoveFrom(self.word()?),
            22 => {
                let (parameters, n) = (self.byte()?, self.byte()?);
                Call { parameters, acquired: self.words(n)?, returns: self.counted_tokens()? }
            }
            23 => Ret,
            24 => Values { takes: self.word()?, pushes: self.word()?, token: self.up_to(2)? },
            25 => MoveTo,
            26 => Vector {
                takes: self.up_to(2)?,
                mutable: self.flag()?,
                pushes: self.up_to(1)?,
                token: self.up_to(2)?,
            },
            27 => Element { mutable: self.flag()? },
            _ => unreachable!("kinds are told apart before bodies are read"),
        };
        Some(Record::Instruction(instruction))
    }

    fn local(&mut self, locals: u8) -> Option<u8> {
        self.byte().filter(|l| *l < locals)
    }
}

const LONGEST: usize = 65_536;

/// The routine, with where each block and each instruction record starts.
struct Reading {
    routine: Routine,
    block_starts: Vec<usize>,
    code_starts: Vec<usize>,
}

pub fn read(listing: &[u8]) -> Result<Routine, Unread> {
    let refuse = |number: u32, place: usize| Err(Unread::Refused { number, place: place as u32 });
    if listing.is_empty() {
        return Err(Unread::Nothing);
    }
    if listing.len() > LONGEST {
        return refuse(6, LONGEST);
    }
    let mut reading = Reading { routine: Routine::default(), block_starts: vec![], code_starts: vec![] };
    let mut start = 0;
    while start < listing.len() {
        match reading.take(listing, start) {
            Ok(end) => start = end,
            Err(number) => return refuse(number, start),
        }
    }
    match reading.misplaced(listing.len()) {
        Some(place) => refuse(5, place),
        None => Ok(reading.routine),
    }
}

impl Reading {
    /// Takes the record that starts there and answers where the next one starts.
    fn take(&mut self, listing: &[u8], start: usize) -> Result<usize, u32> {
        let rest = &listing[start..];
        let [a, b, c, d, ..] = *rest else { return Err(1) };
        let end = 4 + u16::from_le_bytes([a, b]) as usize;
        let body = rest.get(4..end).ok_or(1u32)?;
        let kind = u16::from_le_bytes([c, d]);
        if !matches!(kind, 1 | 2 | 10..=27) {
            return Err(2);
        }
        if (kind == 1) != (start == 0) {
            return Err(4);
        }
        if kind == 2 && !self.routine.code.is_empty() {
            return Err(33);
        }
        let mut body = Body(body);
        let record = body.record(kind, self.routine.locals).filter(|_| body.0.is_empty()).ok_or(3u32)?;
        if self.add(record, start) {
            Ok(start + end)
        } else {
            Err(6)
        }
    }

    /// False where a number of refusal 6 is passed.
    fn add(&mut self, record: Record, start: usize) -> bool {
        match record {
            Record::Function { parameters, locals, returns } => {
                let within = locals <= 16 && returns.len() <= 8;
                self.routine = Routine { parameters, locals, returns, ..Routine::default() };
                within
            }
            Record::Block(block) => {
                self.routine.blocks.push(block);
                self.block_starts.push(start);
                self.routine.blocks.len() <= 16
            }
            Record::Instruction(instruction) => {
                let within = match &instruction {
                    Instruction::Call { parameters, acquired, returns } => {
                        *parameters <= 16 && acquired.len() <= 16 && returns.len() <= 8
                    }
                    _ => true,
                };
                self.routine.code.push(instruction);
                self.code_starts.push(start);
                within && self.routine.code.len() <= 512
            }
        }
    }

    /// The place of refusal 5, if any.
    fn misplaced(&self, length: usize) -> Option<usize> {
        if self.routine.blocks.is_empty() {
            return Some(length);
        }
        let block = (0..self.routine.blocks.len()).find(|at| self.bad_block(*at));
        if let Some(at) = block {
            return Some(self.block_starts[at]);
        }
        let ends =
            |at: usize| self.routine.blocks.iter().any(|b| b.exit as usize == at && b.successors.is_empty());
        (0..self.routine.code.len())
            .find(|at| self.routine.code[*at] == Instruction::Ret && !ends(*at))
            .map(|at| self.code_starts[at])
    }

    fn bad_block(&self, at: usize) -> bool {
        let blocks = &self.routine.blocks;
        let Block { entry, exit, successors } = &blocks[at];
        let listed = |entry: u16| blocks.iter().position(|b| b.entry == entry);
        (at == 0 && *entry != 0)
            || entry > exit
            || *exit as usize >= self.routine.code.len()
            || blocks[..at].iter().any(|b| b.entry <= *exit && *entry <= b.exit)
            || (successors.len() == 2 && successors[0] == successors[1])
            || successors.iter().any(|s| match listed(*s) {
                None => true,
                Some(to) => s > entry && to <= at,
            })
    }
}

fn record(kind: u16, body: &[u8], out: &mut Vec<u8>) {
    out.extend((body.len() as u16).to_le_bytes());
    out.extend(kind.to_le_bytes());
    out.extend(body);
}

fn write_function(routine: &Routine, out: &mut Vec<u8>) {
    let mut body = vec![routine.parameters.len() as u8, routine.locals];
    body.extend(&routine.parameters);
    body.push(routine.returns.len() as u8);
    body.extend(&routine.returns);
    record(1, &body, out)
}

fn write_block(block: &Block, out: &mut Vec<u8>) {
    let mut body = vec![];
    body.extend(block.entry.to_le_bytes());
    body.extend(block.exit.to_le_bytes());
    body.push(block.successors.len() as u8);
    body.extend(block.successors.iter().flat_map(|s| s.to_le_bytes()));
    record(2, &body, out)
}

pub fn write_instruction(instruction: &Instruction, out: &mut Vec<u8>) {
    use Instruction::*;
    let numbered = |number: &u16, mutable: &bool| {
        let [low, high] = number.to_le_bytes();
        vec![low, high, *mutable as u8]
    };
    let (kind, body) = match instruction {
        Pop => (10, vec![]),
        CopyLoc(local) => (11, vec![*local]),
        MoveLoc(local) => (12, vec![*local]),
        StLoc(local) => (13, vec![*local]),
        FreezeRef => (14, vec![]),
        Eq => (15, vec![]),
        ReadRef => (16, vec![]),
        WriteRef => (17, vec![]),
        BorrowLoc { local, mutable } => (18, vec![*local, *mutable as u8]),
        BorrowField { number, mutable } => (19, numbered(number, mutable)),
        BorrowGlobal { number, mutable } => (20, numbered(number, mutable)),
        MoveFrom(number) => (21, number.to_le_bytes().to_vec()),
        Call { parameters, acquired, returns } => {
            let mut body = vec![*parameters, acquired.len() as u8];
            body.extend(acquired.iter().flat_map(|a| a.to_le_bytes()));
            body.push(returns.len() as u8);
            body.extend(returns);
            (22, body)
        }
        Ret => (23, vec![]),
        Values { takes, pushes, token } => {
            let ([a, b], [c, d]) = (takes.to_le_bytes(), pushes.to_le_bytes());
            (24, vec![a, b, c, d, *token])
        }
        MoveTo => (25, vec![]),
        Vector { takes, mutable, pushes, token } => (26, vec![*takes, *mutable as u8, *pushes, *token]),
        Element { mutable } => (27, vec![*mutable as u8]),
    };
    record(kind, &body, out)
}

/// The listing: its blocks stand before its instructions.
pub fn write(routine: &Routine) -> Vec<u8> {
    let mut out = vec![];
    write_function(routine, &mut out);
    routine.blocks.iter().for_each(|b| write_block(b, &mut out));
    routine.code.iter().for_each(|i| write_instruction(i, &mut out));
    out
}
