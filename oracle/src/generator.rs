//! Random images with the structure of a module: most handles name what they may, and a few do not.
use crate::layout::{fields, Cased, Field, Table, ABSENT};
use crate::random::Random;
use crate::writer::{handle_places, set_word, words, write, Choice};

/// Records that follow each other directly, such as members and their struct.
type Chunk = Vec<Vec<u8>>;

/// How large random images are.
#[derive(Clone, Copy, PartialEq, Eq)]
pub enum Scale {
    /// Mostly a few dozen records, now and then some hundred.
    Any,
    /// A few records.
    Small,
}

/// The records of a random image.
pub fn records(random: &mut Random, scale: Scale) -> Vec<Vec<u8>> {
    let faults = random.pick(&[0, 0, 0, 5, 20, 100, 400]);
    let single = faults == 0 && random.chance(700);
    let mut generator = Generator {
        plan: match scale {
            Scale::Any => Plan::random(random),
            Scale::Small => Plan::small(random),
        },
        faults,
        next_mark: 1000,
        random,
    };
    let mut records = generator.module();
    if single {
        change_one_handle(&mut records, random);
    }
    records
}

/// The records of a random image that sealing often accepts.
pub fn sealable_records(random: &mut Random) -> Vec<Vec<u8>> {
    let faults = random.pick(&[0, 0, 0, 0, 0, 0, 0, 5]);
    let plan = Plan::sealable(random);
    let mut generator = Generator {
        plan,
        faults,
        next_mark: 1000,
        random,
    };
    generator.module()
}

/// Gives a handle, or an end of a range, another number.
fn change_one_handle(records: &mut [Vec<u8>], random: &mut Random) {
    for _ in 0..8 {
        if records.is_empty() {
            return;
        }
        let record = random.below(records.len());
        let record = &mut records[record];
        let mut places = handle_places(record);
        if record[0] == 128 {
            places = vec![1, 5];
        }
        if places.is_empty() {
            continue;
        }
        let near = random.below(12) as u32;
        let number = random.pick(&[near, near, near, 100, ABSENT - 1]);
        set_word(record, random.pick(&places), number);
        return;
    }
}

/// How many items each table of the module is to have, and what the inits of constants and overrides are.
struct Plan {
    types: usize,
    global_expressions: usize,
    constants: Vec<u32>,
    overrides: Vec<u32>,
    global_variables: usize,
    filters: usize,
    functions: usize,
    entry_points: usize,
    grouped: bool,
    /// A body has fewer expressions than this, and fewer statements outside of blocks.
    body: usize,
    /// For a module that sealing is to accept: how many of the first types have no override as size. They are all that
    /// overrides, and nearly all that constants and global expressions name.
    plain_types: Option<usize>,
}

impl Plan {
    fn random(random: &mut Random) -> Plan {
        let scale = if random.chance(30) { 8 } else { 1 };
        let global_expressions = random.below(7 * scale);
        let types = 1 + random.below(6 * scale);
        let types = if random.chance(950) { types } else { 0 };
        Plan {
            types,
            global_expressions,
            constants: inits(random, 4 * scale, global_expressions),
            overrides: optional_inits(random, 4 * scale, global_expressions),
            global_variables: random.below(4 * scale),
            filters: random.below(4 * scale),
            functions: random.below(4 * scale),
            entry_points: random.below(3),
            grouped: random.chance(400),
            body: if random.chance(30) { 60 } else { 9 },
            plain_types: None,
        }
    }

    fn small(random: &mut Random) -> Plan {
        let global_expressions = random.below(3);
        Plan {
            types: random.below(3),
            global_expressions,
            constants: inits(random, 2, global_expressions),
            overrides: optional_inits(random, 2, global_expressions),
            global_variables: random.below(8) / 7,
            filters: random.below(6) / 4,
            functions: random.below(3),
            entry_points: random.below(16) / 15,
            grouped: random.chance(400),
            body: 4,
            plain_types: None,
        }
    }

    fn sealable(random: &mut Random) -> Plan {
        let mut plan = match random.chance(250) {
            true => Plan::small(random),
            false => Plan::random(random),
        };
        plan.types = plan.types.max(1);
        plan.plain_types = Some(1 + random.below(plan.types.min(3)));
        // Mostly late inits, so that a size looks at many expressions.
        for init in &mut plan.overrides {
            if plan.global_expressions > 0 && random.chance(700) {
                let early = random.below(plan.global_expressions);
                let other = random.below(plan.global_expressions);
                *init = early.max(other) as u32;
            }
        }
        plan
    }
}

/// The inits of fewer than `most` constants.
fn inits(random: &mut Random, most: usize, expressions: usize) -> Vec<u32> {
    match expressions {
        0 => Vec::new(),
        _ => (0..random.below(most))
            .map(|_| random.below(expressions) as u32)
            .collect(),
    }
}

/// The inits of fewer than `most` overrides.
fn optional_inits(random: &mut Random, most: usize, expressions: usize) -> Vec<u32> {
    (0..random.below(most))
        .map(|_| {
            if expressions == 0 || random.chance(500) {
                ABSENT
            } else {
                random.below(expressions) as u32
            }
        })
        .collect()
}

/// How many items of each table the handles of a record may name.
#[derive(Clone, Copy, Default)]
struct Limits {
    types: usize,
    constants: usize,
    overrides: usize,
    global_variables: usize,
    local_variables: usize,
    expressions: usize,
    functions: usize,
    filters: usize,
    /// How many arguments the body has.
    arguments: usize,
}

impl Limits {
    fn of(&self, table: Table) -> usize {
        match table {
            Table::Type => self.types,
            Table::Constant => self.constants,
            Table::Override => self.overrides,
            Table::GlobalVariable => self.global_variables,
            Table::LocalVariable => self.local_variables,
            Table::Expression => self.expressions,
            Table::Function => self.functions,
            Table::Filter => self.filters,
        }
    }

    /// Whether a record of this kind can name an item for each handle that it must have.
    fn allow(&self, kind: u8) -> bool {
        let fields = fields(kind).expect("the kind is one");
        fields.iter().all(|field| match *field {
            Field::Handle(table) => self.of(table) > 0,
            _ => true,
        })
    }
}

struct Generator<'a> {
    random: &'a mut Random,
    plan: Plan,
    /// How many of a thousand handles name what they may not.
    faults: usize,
    next_mark: u32,
}

/// Fills a record: handles below the limits, but for faults.
struct Filler<'a> {
    random: &'a mut Random,
    limits: Limits,
    faults: usize,
    /// The first mark of a type, which makes it differ from all others.
    first_mark: Option<u32>,
}

impl Choice for Filler<'_> {
    fn handle(&mut self, table: Table) -> u32 {
        let limit = self.limits.of(table);
        if limit > 0 && !self.random.chance(self.faults) {
            return self.random.below(limit) as u32;
        }
        let behind = limit + self.random.below(3);
        let any = self.random.below(usize::from(u16::MAX));
        let numbers = [behind, behind, behind, any, ABSENT as usize - 1];
        self.random.pick(&numbers) as u32
    }

    fn optional(&mut self, table: Table) -> u32 {
        let absent = self.limits.of(table) == 0 && !self.random.chance(self.faults);
        if absent || self.random.chance(300) {
            return ABSENT;
        }
        self.handle(table)
    }

    fn mark(&mut self) -> u32 {
        match self.first_mark.take() {
            Some(mark) => mark,
            None => self.random.pick(&[0, 1, 2, ABSENT]),
        }
    }

    fn number(&mut self) -> u32 {
        let any = self.random.next() as u32;
        self.random.pick(&[0, 1, 4, any, ABSENT])
    }

    fn flag(&mut self) -> bool {
        self.random.chance(500)
    }

    fn case(&mut self, cased: &Cased) -> usize {
        let case = self.random.below(cased.cases.len());
        let fits = cased.cases[case].iter().all(|field| match *field {
            Field::Handle(table) => self.limits.of(table) > 0,
            _ => true,
        });
        if fits || self.random.chance(self.faults) {
            return case;
        }
        let plain = |case: &&[Field]| !case.iter().any(|f| matches!(f, Field::Handle(_)));
        cased.cases.iter().position(plain).unwrap_or(case)
    }
}

impl Generator<'_> {
    fn filled(&mut self, kind: u8, limits: Limits) -> Vec<u8> {
        self.named(kind, limits, None)
    }

    fn named(&mut self, kind: u8, limits: Limits, first_mark: Option<u32>) -> Vec<u8> {
        let mut filler = Filler {
            limits,
            faults: self.faults,
            first_mark,
            random: self.random,
        };
        write(kind, &mut filler)
    }

    fn mark(&mut self) -> u32 {
        self.next_mark += 1;
        self.next_mark
    }

    /// A random kind of these, mostly one that can name what it must.
    fn kind(&mut self, kinds: std::ops::RangeInclusive<u8>, limits: &Limits) -> u8 {
        let count = usize::from(kinds.end() - kinds.start()) + 1;
        for _ in 0..4 {
            let kind = kinds.start() + self.random.below(count) as u8;
            if limits.allow(kind) {
                return kind;
            }
        }
        *kinds.start()
    }

    /// What an item of the module may name.
    fn module_limits(&self) -> Limits {
        Limits {
            types: self.plan.types,
            constants: self.plan.constants.len(),
            overrides: self.plan.overrides.len(),
            global_variables: self.plan.global_variables,
            local_variables: 0,
            expressions: self.plan.global_expressions,
            functions: self.plan.functions,
            filters: self.plan.filters,
            arguments: 0,
        }
    }

    fn sealable(&self) -> bool {
        self.plan.plain_types.is_some()
    }

    /// How many types constants and global expressions name: mostly the plain ones, where there is such a bound.
    fn mostly_plain(&mut self, types: usize) -> usize {
        match self.plan.plain_types {
            Some(plain) if !self.random.chance(60) => plain,
            _ => types,
        }
    }

    fn module(&mut self) -> Vec<Vec<u8>> {
        let tables = vec![
            self.types(),
            self.overrides(),
            self.constants(),
            self.items(5, self.plan.global_variables),
            self.global_expressions(),
            self.filters(),
            self.special(),
            self.bodies(),
        ];
        self.merge(tables)
    }

    /// The chunks of lists, one list after the other or mixed.
    fn merge(&mut self, lists: Vec<Vec<Chunk>>) -> Vec<Vec<u8>> {
        if self.plan.grouped {
            return lists.into_iter().flatten().flatten().collect();
        }
        let mut rests: Vec<_> = lists.into_iter().map(Vec::into_iter).collect();
        let mut merged = Vec::new();
        while !rests.is_empty() {
            let chosen = self.random.below(rests.len());
            match rests[chosen].next() {
                Some(chunk) => merged.extend(chunk),
                None => drop(rests.swap_remove(chosen)),
            }
        }
        merged
    }

    fn types(&mut self) -> Vec<Chunk> {
        let mut chunks: Vec<Chunk> = Vec::new();
        for number in 0..self.plan.types {
            let sized = self.plan.plain_types.is_none_or(|plain| number >= plain);
            let limits = Limits {
                types: number,
                overrides: if sized { self.plan.overrides.len() } else { 0 },
                ..Limits::default()
            };
            let chunk = self.ty(limits);
            chunks.push(chunk);
            if self.random.chance(50) {
                // An equal type has no number of its own.
                let earlier = chunks[self.random.below(chunks.len())].clone();
                chunks.push(earlier);
            }
        }
        chunks
    }

    fn ty(&mut self, limits: Limits) -> Chunk {
        let sizes = self.sealable() && limits.overrides > 0;
        let kind = if sizes && self.random.chance(500) {
            self.random.pick(&[23, 29])
        } else if self.random.chance(450) {
            self.random.pick(&[21, 23, 23, 24, 29])
        } else {
            self.kind(16..=29, &limits)
        };
        let kind = if limits.allow(kind) { kind } else { 16 };
        let mark = self.mark();
        let mut chunk = Vec::new();
        if kind == 24 && (limits.types > 0 || self.random.chance(self.faults)) {
            for _ in 0..self.random.below(4) {
                chunk.push(self.filled(1, limits));
            }
        }
        let mark = if self.random.chance(980) { mark } else { 1000 };
        let mut record = self.named(kind, limits, Some(mark));
        if sizes && matches!(kind, 23 | 29) {
            self.choose_pending(&mut record, limits.overrides);
        }
        chunk.push(record);
        chunk
    }

    /// Mostly makes the size of an array one of so many overrides.
    fn choose_pending(&mut self, record: &mut [u8], overrides: usize) {
        if self.random.chance(700) {
            record[9] = 1;
            set_word(record, 10, self.random.below(overrides) as u32);
        }
    }

    fn overrides(&mut self) -> Vec<Chunk> {
        let mut chunks = Vec::new();
        let mut limits = self.module_limits();
        limits.types = self.plan.plain_types.unwrap_or(limits.types);
        for init in self.plan.overrides.clone() {
            let mut record = self.filled(3, limits);
            if self.random.chance(700) {
                set_word(&mut record, 9, 0);
            }
            if !self.random.chance(self.faults) {
                set_word(&mut record, 13, init);
            }
            chunks.push(vec![record]);
        }
        chunks
    }

    fn constants(&mut self) -> Vec<Chunk> {
        let mut chunks = Vec::new();
        let mut limits = self.module_limits();
        for init in self.plan.constants.clone() {
            limits.types = self.mostly_plain(self.plan.types);
            let mut record = self.filled(4, limits);
            if !self.random.chance(self.faults) {
                set_word(&mut record, 9, init);
            }
            chunks.push(vec![record]);
        }
        chunks
    }

    fn items(&mut self, kind: u8, count: usize) -> Vec<Chunk> {
        let limits = self.module_limits();
        (0..count)
            .map(|_| vec![self.filled(kind, limits)])
            .collect()
    }

    fn filters(&mut self) -> Vec<Chunk> {
        (0..self.plan.filters)
            .map(|number| {
                let limits = Limits {
                    filters: number,
                    ..Limits::default()
                };
                vec![self.filled(8, limits)]
            })
            .collect()
    }

    /// Special types, predeclared types and leaves.
    fn special(&mut self) -> Vec<Chunk> {
        let limits = self.module_limits();
        let mut chunks = Vec::new();
        for _ in 0..self.random.below(4) {
            let kind = self.random.pick(&[6, 7, 9]);
            if limits.allow(kind) {
                chunks.push(vec![self.filled(kind, limits)]);
            }
        }
        chunks
    }

    fn global_expressions(&mut self) -> Vec<Chunk> {
        (0..self.plan.global_expressions)
            .map(|number| self.global_expression(number))
            .collect()
    }

    fn global_expression(&mut self, number: usize) -> Chunk {
        let mut limits = self.module_limits();
        limits.expressions = number;
        if self.random.chance(600) {
            // Few types, so that sizes with an init pass.
            limits.types = limits.types.min(1);
        }
        limits.types = self.mostly_plain(limits.types);
        let kind = match self.random.chance(700) {
            true if self.sealable() => self.random.pick(&[65, 65, 66, 67, 68, 68, 95]),
            true => self.random.pick(&[64, 65, 66, 67, 68]),
            false => self.kind(64..=97, &limits),
        };
        let misplaced = self.sealable() && matches!(kind, 73 | 74 | 75 | 87);
        if misplaced || !limits.allow(kind) {
            return vec![self.filled(64, limits)];
        }
        let mut chunk = Vec::new();
        if kind == 68 && (number > 0 || self.random.chance(self.faults)) {
            for _ in 0..self.random.below(4) {
                chunk.push(self.filled(2, limits));
            }
        }
        let inits = match kind {
            65 => self.plan.constants.clone(),
            66 => self.plan.overrides.clone(),
            _ => Vec::new(),
        };
        let mut record = self.filled(kind, limits);
        if !inits.is_empty() && !self.random.chance(self.faults) {
            match self.passing_item(&inits, number) {
                Some(item) => set_word(&mut record, 1, item as u32),
                None => record = self.filled(64, limits),
            }
        }
        chunk.push(record);
        chunk
    }

    /// Of the constants or overrides with these inits one that the global expression with this number may name: the last,
    /// or any for a module that sealing is to accept.
    fn passing_item(&mut self, inits: &[u32], number: usize) -> Option<usize> {
        let passes = |&item: &usize| inits[item] == ABSENT || (inits[item] as usize) < number;
        let mut passing: Vec<usize> = (0..inits.len()).filter(passes).collect();
        if self.sealable() && !passing.is_empty() {
            return Some(self.random.pick(&passing));
        }
        passing.pop()
    }

    fn bodies(&mut self) -> Vec<Chunk> {
        let mut left = (self.plan.functions, self.plan.entry_points);
        let mut chunks = Vec::new();
        let mut function = 0;
        while left != (0, 0) {
            let entry = self.random.below(left.0 + left.1) >= left.0;
            let limits = self.module_limits();
            if entry {
                left.1 -= 1;
                let opener = self.filled(12, limits);
                chunks.push(self.body(opener, self.plan.functions));
            } else {
                left.0 -= 1;
                let opener = self.filled(11, limits);
                chunks.push(self.body(opener, function));
                function += 1;
            }
        }
        chunks
    }

    /// A body that may use the results of the first `callable` functions, and call all, or only these for a module that
    /// sealing is to accept.
    fn body(&mut self, opener: Vec<u8>, callable: usize) -> Chunk {
        let most = self.plan.body;
        let expressions = self.random.below(most);
        let local_variables = self.random.below(4.min(most - 1));
        let mut whole = Limits {
            expressions,
            local_variables,
            ..self.module_limits()
        };
        if self.sealable() {
            whole.functions = callable;
        }
        let mut header: Vec<Chunk> = Vec::new();
        for _ in 0..self.random.below(4.min(most - 1)) {
            let kind = self.random.pick(&[13, 13, 14]);
            if whole.allow(kind) {
                header.push(vec![self.filled(kind, whole)]);
                whole.arguments += usize::from(kind == 13);
            }
        }
        let locals = (0..local_variables)
            .map(|_| vec![self.filled(15, whole)])
            .collect();
        let values = (0..expressions)
            .map(|number| {
                let limits = Limits {
                    expressions: number,
                    functions: callable,
                    ..whole
                };
                self.expression(limits)
            })
            .collect();
        let mut named: Vec<Chunk> = Vec::new();
        for _ in 0..self.random.below(3) {
            if whole.allow(30) {
                named.push(vec![self.filled(30, whole)]);
            }
        }
        let mut statements = Vec::new();
        let count = self.random.below(most);
        self.statements(count, 0, whole, &mut statements);
        let mut records = vec![opener];
        records.extend(self.merge(vec![header, locals, values, named, statements]));
        records.push(vec![31]);
        records
    }

    fn expression(&mut self, mut limits: Limits) -> Chunk {
        let mut kind = self.kind(64..=97, &limits);
        if self.sealable() {
            if kind == 73 {
                return vec![self.argument(limits.arguments)];
            }
        } else if self.plan.functions > 0 && self.random.chance(20) {
            // A result of any function, also of one that is not earlier.
            kind = 87;
            limits.functions = self.plan.functions;
        }
        let mut chunk = Vec::new();
        if kind == 68 && (limits.expressions > 0 || self.random.chance(self.faults)) {
            for _ in 0..self.random.below(4) {
                chunk.push(self.filled(2, limits));
            }
        }
        chunk.push(self.filled(kind, limits));
        chunk
    }

    /// An expression that is one of so many arguments.
    fn argument(&mut self, arguments: usize) -> Vec<u8> {
        match arguments {
            0 => words(64, &[1]),
            _ => words(73, &[self.random.below(arguments) as u32]),
        }
    }

    fn statements(&mut self, count: usize, depth: usize, limits: Limits, out: &mut Vec<Chunk>) {
        for _ in 0..count {
            let kind = self.kind(128..=150, &limits);
            if matches!(kind, 129..=132) {
                if depth < 6 {
                    self.nested(kind, depth, limits, out);
                }
                continue;
            }
            let mut chunk = Vec::new();
            if kind == 144 && (limits.expressions > 0 || self.random.chance(self.faults)) {
                for _ in 0..self.random.below(4) {
                    chunk.push(self.filled(2, limits));
                }
            }
            chunk.push(match kind {
                128 => self.emit(limits.expressions),
                _ => self.filled(kind, limits),
            });
            out.push(chunk);
        }
    }

    fn emit(&mut self, expressions: usize) -> Vec<u8> {
        if self.random.chance(self.faults) {
            let near = self.random.below(expressions + 3) as u32;
            let other = self.random.below(expressions + 3) as u32;
            let far = self.random.pick(&[near, other, ABSENT, ABSENT - 1]);
            return words(128, &[near, far]);
        }
        if self.random.chance(150) {
            let any = self.random.pick(&[0, 5, 100, ABSENT]);
            return words(128, &[any, any]);
        }
        let end = self.random.below(expressions + 1);
        let start = self.random.below(end + 1);
        words(128, &[start as u32, end as u32])
    }

    fn nested(&mut self, kind: u8, depth: usize, limits: Limits, out: &mut Vec<Chunk>) {
        out.push(vec![self.filled(kind, limits)]);
        let inner = |generator: &mut Self, out: &mut Vec<Chunk>| {
            let count = generator.random.below(3);
            generator.statements(count, depth + 1, limits, out);
            out.push(vec![vec![151]]);
        };
        match kind {
            129 => inner(self, out),
            130 => {
                inner(self, out);
                inner(self, out);
            }
            131 => {
                for _ in 0..self.random.below(3) {
                    out.push(vec![self.filled(153, limits)]);
                    inner(self, out);
                }
                out.push(vec![vec![154]]);
            }
            _ => {
                inner(self, out);
                let count = self.random.below(3);
                self.statements(count, depth + 1, limits, out);
                out.push(vec![self.filled(152, limits)]);
            }
        }
    }
}
