// A grammar from a packed file, checked, with its live places.

#[derive(Clone, Copy)]
pub enum Symbol {
    Token(u16),
    // Argument and constituent, counted from 0.
    Argument(u8, u8),
}

pub struct Function {
    pub arity: usize,
    pub constituents: Vec<Vec<Symbol>>,
}

pub struct Place {
    pub result: u8,
    pub function: u16,
    pub arguments: Vec<u8>,
}

pub struct Grammar {
    pub tokens: u16,
    pub start: u8,
    pub dimensions: Vec<u8>,
    pub functions: Vec<Function>,
    pub places: Vec<Option<Place>>,
    // The live places of each category.
    pub live: Vec<Vec<u16>>,
    // How many cells the grammar takes.
    pub cells: usize,
}

fn small(n: u16, limit: u16, what: &str) -> Result<u8, String> {
    if n < limit { Ok(n as u8) } else { Err(format!("{what} {n} is too large")) }
}

impl Grammar {
    // Reads and checks a packed file, and finds the live places.
    pub fn read(bytes: &[u8]) -> Result<Grammar, String> {
        let mut grammar = Grammar {
            tokens: 0,
            start: 0,
            dimensions: Vec::new(),
            functions: Vec::new(),
            places: Vec::new(),
            live: Vec::new(),
            cells: 0,
        };
        let mut rest = bytes;
        while !rest.is_empty() {
            if rest.len() < 2 {
                return Err("half a length".into());
            }
            let length = u16::from_le_bytes([rest[0], rest[1]]) as usize;
            if length < 2 || length % 2 != 0 || rest.len() < 2 + length {
                return Err("bad length".into());
            }
            let numbers: Vec<u16> =
                rest[2..2 + length].chunks(2).map(|b| u16::from_le_bytes([b[0], b[1]])).collect();
            grammar.add_record(&numbers)?;
            rest = &rest[2 + length..];
        }
        grammar.check()?;
        grammar.find_live()?;
        grammar.cells = grammar.count_cells();
        Ok(grammar)
    }

    fn add_record(&mut self, numbers: &[u16]) -> Result<(), String> {
        match numbers {
            [1, tokens, start] => {
                self.tokens = *tokens;
                self.start = small(*start, 64, "start")?;
            }
            [2, dimension] => self.dimensions.push(small(*dimension, 4, "dimension")?),
            [3, arity] => {
                let arity = small(*arity, 4, "arity")? as usize;
                self.functions.push(Function { arity, constituents: Vec::new() });
            }
            [4, symbols @ ..] => {
                let mut constituent = Vec::new();
                for pair in symbols.chunks(2) {
                    constituent.push(match pair {
                        [0, token] => Symbol::Token(*token),
                        [k, l] if *l > 0 => Symbol::Argument(small(*k - 1, 3, "argument")?, small(*l - 1, 3, "constituent")?),
                        _ => return Err("bad symbol".into()),
                    });
                }
                self.functions.last_mut().ok_or("no function")?.constituents.push(constituent);
            }
            [5, result, function, arguments @ ..] => {
                let arguments = arguments.iter().map(|a| small(*a, 64, "argument")).collect::<Result<_, _>>()?;
                let result = small(*result, 64, "result")?;
                self.places.push(Some(Place { result, function: *function, arguments }));
            }
            [6] => self.places.push(None),
            _ => return Err("bad record".into()),
        }
        Ok(())
    }

    fn check(&self) -> Result<(), String> {
        let dimension = |c: u8| self.dimensions.get(c as usize).copied().ok_or("no such category");
        if self.tokens > 1024 || self.dimensions.len() > 64 || self.functions.len() > 512 || self.places.len() > 512 {
            return Err("over a limit".into());
        }
        if self.dimensions.contains(&0) || dimension(self.start)? != 1 {
            return Err("bad dimension".into());
        }
        for function in &self.functions {
            if function.constituents.len() > 3 || function.constituents.iter().any(|c| c.len() > 16) {
                return Err("over a limit".into());
            }
            for symbol in function.constituents.iter().flatten() {
                match *symbol {
                    Symbol::Token(t) if t < self.tokens => {}
                    Symbol::Argument(d, _) if (d as usize) < function.arity => {}
                    _ => return Err("bad symbol".into()),
                }
            }
        }
        for place in self.places.iter().flatten() {
            let function = self.functions.get(place.function as usize).ok_or("no such function")?;
            if place.arguments.len() != function.arity
                || function.constituents.len() != dimension(place.result)? as usize
            {
                return Err("bad place".into());
            }
            for argument in &place.arguments {
                dimension(*argument)?;
            }
            for symbol in function.constituents.iter().flatten() {
                if let Symbol::Argument(d, s) = *symbol {
                    if s >= dimension(place.arguments[d as usize])? {
                        return Err("bad place".into());
                    }
                }
            }
        }
        Ok(())
    }

    fn find_live(&mut self) -> Result<(), String> {
        let mut has_tree = vec![false; self.dimensions.len()];
        let is_live = |place: &Place, has_tree: &[bool]| place.arguments.iter().all(|a| has_tree[*a as usize]);
        loop {
            let mut changed = false;
            for place in self.places.iter().flatten() {
                if !has_tree[place.result as usize] && is_live(place, &has_tree) {
                    has_tree[place.result as usize] = true;
                    changed = true;
                }
            }
            if !changed {
                break;
            }
        }
        if !has_tree[self.start as usize] {
            return Err("no start tree".into());
        }
        self.live = vec![Vec::new(); self.dimensions.len()];
        for (p, place) in self.places.iter().enumerate() {
            if let Some(place) = place {
                if is_live(place, &has_tree) {
                    self.live[place.result as usize].push(p as u16);
                }
            }
        }
        Ok(())
    }

    fn count_cells(&self) -> usize {
        let constituents = || self.functions.iter().flat_map(|f| &f.constituents);
        let arguments: usize = self.places.iter().flatten().map(|p| p.arguments.len()).sum();
        self.dimensions.len()
            + self.functions.len()
            + constituents().count()
            + constituents().map(|c| c.len()).sum::<usize>()
            + self.places.len()
            + arguments
    }

    pub fn place(&self, p: u16) -> &Place {
        self.places[p as usize].as_ref().expect("a live place is filled")
    }

    // The symbol after the dot.
    pub fn symbol(&self, p: u16, constituent: u8, dot: u8) -> Option<Symbol> {
        let function = &self.functions[self.place(p).function as usize];
        function.constituents[constituent as usize].get(dot as usize).copied()
    }
}
