//! A random accepted sheet with types of all kinds added to it.

use crate::accepted::{accepted_within, Room};
use crate::breach::{Breach, Owner};
use crate::operations::{give_back, leave, set, take};
use crate::random::Random;
use crate::records::{
    InstructionRecord, QualifiedRecord, TypeRecord, ARRAY_ALL, FETCH, NONE, OPEN,
};
use crate::second_edition::EDGES;
use crate::sheet::{At, Procedure, Sheet};
use crate::typing::Typing;
use reference::Edition;

/// What remains free for the kit's own records.
const ROOM: Room = Room {
    types: 6,
    qualified: 24,
    procedures: 6,
    instructions: 12,
};

pub struct Kit {
    pub sheet: Sheet,
    pub typing: Typing,
    /// The declared type that the flaws are about, and another one.
    pub subject: u8,
    pub stranger: u8,
    /// The kit's qualified types, from the first to the last.
    pub own: Vec<u8>,
    pub integer: u8,
    /// ?R, an array of it and an array of arrays, each with all rights.
    pub generic: [u8; 3],
    /// The two rights of the subject that the kit's types have.
    pub low: u32,
    pub high: u32,
}

impl Kit {
    pub fn new(random: &mut Random) -> Self {
        let mut sheet = accepted_within(random, ROOM);
        let subject = sheet.types.len() as u8 + 2;
        let [most, low, high] = some_rights(random, sheet.edition());
        sheet.types.push(TypeRecord::new(most as u8, &[]));
        sheet.types.push(TypeRecord::new(most as u8, &[]));
        let first = sheet.qualified.len() as u8;
        sheet
            .qualified
            .extend(qualified_types(first, subject, 1 << low, 1 << high));
        let generic = sheet.qualified.len() as u8;
        sheet.qualified.push(QualifiedRecord::GENERIC);
        for element in [generic, generic + 1] {
            let array = QualifiedRecord::array(element, ARRAY_ALL);
            sheet.qualified.push(array);
        }
        let mut kit = Kit {
            typing: Typing::of(&sheet.qualified),
            subject,
            stranger: subject + 1,
            own: (first..generic).collect(),
            integer: first,
            generic: [generic, generic + 1, generic + 2],
            low: 1 << low,
            high: 1 << high,
            sheet,
        };
        kit.fill_slots(random);
        kit.sheet.seal();
        kit
    }

    /// The subject gets slots of random types, among them a record and an
    /// array so that every movement can be tried.
    fn fill_slots(&mut self, random: &mut Random) {
        let closed = self.own_where(|kit, number| !kit.typing.has_open(number));
        let count = random.between(0, 6);
        let mut slots: Vec<u8> = (0..count).filter_map(|_| random.pick(&closed)).collect();
        slots.insert(random.between(0, count), self.own[2]);
        slots.insert(random.between(0, count), self.own[8]);
        let subject = usize::from(self.subject) - 2;
        let named_rights = self.sheet.types[subject].named_rights;
        self.sheet.types[subject] = TypeRecord::new(named_rights, &slots);
    }

    pub fn slots(&self) -> &[u8] {
        self.sheet.types[usize::from(self.subject) - 2].used_slots()
    }

    pub fn own_where(&self, test: impl Fn(&Kit, u8) -> bool) -> Vec<u8> {
        let own = self.own.iter().copied();
        own.filter(|&number| test(self, number)).collect()
    }

    /// One of the kit's types that passes the test. The kit is made so that
    /// there is one for every test in this module.
    pub fn pick(&self, random: &mut Random, test: impl Fn(&Kit, u8) -> bool) -> u8 {
        let passing = self.own_where(test);
        let picked = random.pick(&passing);
        picked.expect("the kit has a type that passes the test")
    }

    /// Whether a variable may have the type in a procedure of the owner.
    pub fn allowed(&self, owner: u8, number: u8) -> bool {
        !self.typing.has_open(number) || self.typing.get(number).base == owner
    }

    pub fn owner(&self, owner: Owner) -> u8 {
        match owner {
            Owner::None => 0,
            Owner::Same => self.subject,
            Owner::Other => self.stranger,
        }
    }

    pub fn any_owner(&self, random: &mut Random) -> u8 {
        let owners = [0, self.subject, self.stranger];
        owners[random.below(3)]
    }

    /// Puts a procedure at a random number other than main's; calls of the
    /// procedures that move are made to follow them.
    pub fn insert(&mut self, random: &mut Random, procedure: Procedure) -> usize {
        let number = random.between(1, self.sheet.procedures.len());
        for procedure in &mut self.sheet.procedures {
            for instruction in &mut procedure.instructions {
                if instruction.code == 16 && usize::from(instruction.k) >= number {
                    instruction.k += 1;
                }
            }
        }
        self.sheet.procedures.insert(number, procedure);
        self.sheet.seal();
        number
    }

    /// The breach of a sheet in which one record is edited.
    pub fn breach(self, number: u8, at: At, edit: impl FnOnce(&mut Sheet)) -> Breach {
        let mut broken = self.sheet.clone();
        edit(&mut broken);
        Breach {
            sound: self.sheet,
            broken,
            number,
            at,
        }
    }

    /// A body around one instruction, in a procedure whose variable 0 is an
    /// integer and whose variable 1 has the result type, if there is one.
    pub fn body_around(
        &self,
        random: &mut Random,
        instruction: InstructionRecord,
        result: u8,
    ) -> (Vec<InstructionRecord>, usize) {
        let position = random.below(4);
        let mut body: Vec<InstructionRecord> = (0..random.between(position, 6))
            .map(|step| if step % 2 == 0 { set(0, 7) } else { take(0) })
            .collect();
        body.insert(position, instruction);
        body.push(if result == NONE {
            leave()
        } else {
            give_back(1)
        });
        (body, position)
    }
}

/// How many rights a type names, and two of them; in edition 2 mostly rights at
/// the edges.
fn some_rights(random: &mut Random, edition: Edition) -> [usize; 3] {
    let largest = edition.most_named_rights();
    if edition == Edition::Second && !random.one_in(3) {
        let first = random.below(EDGES.len());
        let second = (first + random.between(1, EDGES.len() - 1)) % EDGES.len();
        let [low, high] = [first, second].map(|edge| EDGES[edge]);
        return [random.between(low.max(high), largest), low, high];
    }
    let most = random.between(2, largest);
    let low = random.between(1, most - 1);
    [most, low, random.between(low + 1, most)]
}

/// Types of every kind for a subject, the type after it and two named rights.
fn qualified_types(first: u8, subject: u8, low: u32, high: u32) -> Vec<QualifiedRecord> {
    let record = QualifiedRecord::record;
    let array = |place: u8, rights: u32| QualifiedRecord::array(first + place, rights);
    let mut all = vec![
        QualifiedRecord::INTEGER,           // 0
        record(subject, 0),                 // 1
        record(subject, low),               // 2
        record(subject, low | high),        // 3
        record(subject, OPEN),              // 4
        record(subject, OPEN | low | high), // 5
        record(subject + 1, low),           // 6
        record(subject + 1, OPEN | low),    // 7
        array(2, ARRAY_ALL),                // 8
        array(3, ARRAY_ALL),                // 9
        array(6, ARRAY_ALL),                // 10
        array(0, ARRAY_ALL),                // 11
        record(subject, low),               // 12, twin of 2
        array(12, ARRAY_ALL),               // 13, equal to 8
        array(8, ARRAY_ALL),                // 14
        array(13, ARRAY_ALL),               // 15, equal to 14
        array(9, ARRAY_ALL),                // 16
        array(8, FETCH),                    // 17
    ];
    // Arrays of 2 that lack one or more rights.
    all.extend((0..7).map(|rights| array(2, rights << 1)));
    // An array whose element differs from that of 14 in its rights alone.
    all.push(array(18, ARRAY_ALL));
    // Arrays that ask for less of their elements than 8, with and without store.
    all.extend([ARRAY_ALL, FETCH].map(|rights| array(1, rights)));
    all
}
