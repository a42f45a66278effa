//! What has come up in the chains that were looked at.

use reference::generic::{Read, Reading};
use reference::machine::watched::{Held, State, Value};
use reference::machine::Stop;
use reference::provenance::audit::Recorded;
use reference::provenance::{Link, Location, Origin};
use reference::{Kind, Operation, Rights};
use std::collections::{BTreeMap, BTreeSet};

#[derive(Default)]
pub struct Seen {
    pub runs: usize,
    pub chains: usize,
    /// The codes that gave a link, or did else what a chain depends on.
    codes: BTreeMap<u8, usize>,
    /// The stops after which chains were looked at.
    stops: BTreeMap<Stop, usize>,
    names: BTreeMap<&'static str, usize>,
}

/// All that must come up.
const NAMES: [&str; 33] = [
    "an accepted sheet",
    "a refused sheet",
    "after no step",
    "after a step in the middle",
    "after more steps than are made",
    "main returned, cells are filled",
    "fuel spent in a call",
    "an array made",
    "a record made",
    "amplified, need has the right",
    "amplified, need lacks the right",
    "amplified in a longer chain",
    "bound to another type in the owner's module",
    "the owner's type bound to ?R in its module",
    "?R as need and inner",
    "an array of ?R as need and inner",
    "?R as result",
    "an array of ?R as result",
    "?R as the kept variable",
    "?R as a fetched element",
    "?R as a stored element",
    "?R as a bound variable",
    "?R settled to another set than the caller's",
    "fetched with fewer rights than the cell's",
    "a result dropped",
    "one procedure at two depths",
    "one location twice",
    "bound to itself",
    "a variable with another object before",
    "a cell with another object before",
    "an object in its own slot",
    "two objects in each other",
    "more than 8 links",
];

/// What must come up and is rare.
const RARE: [&str; 1] = ["two sets of ?R in a chain"];

fn add<Key: Ord>(counts: &mut BTreeMap<Key, usize>, key: Key, count: usize) {
    *counts.entry(key).or_default() += count;
}

impl Seen {
    pub fn merge(&mut self, other: Seen) {
        self.runs += other.runs;
        self.chains += other.chains;
        let Seen {
            codes,
            stops,
            names,
            ..
        } = other;
        codes
            .into_iter()
            .for_each(|(code, count)| add(&mut self.codes, code, count));
        stops
            .into_iter()
            .for_each(|(stop, count)| add(&mut self.stops, stop, count));
        names
            .into_iter()
            .for_each(|(name, count)| add(&mut self.names, name, count));
    }

    /// What should have come up, not just once unless it is rare, and has not.
    pub fn faults(&self) -> Vec<String> {
        println!("{} runs, {} chains", self.runs, self.chains);
        println!("codes {:?}", self.codes);
        println!("stops {:?}", self.stops);
        println!("{:#?}", self.names);
        let name = |name: &'static str, least| (String::from(name), self.names.get(name), least);
        let codes = (1..=17).map(|code| (format!("code {code}"), self.codes.get(&code), 20));
        let stops = Stop::ALL.map(|stop| (format!("{stop:?}"), self.stops.get(&stop), 20));
        let names = NAMES.map(|often| name(often, 20));
        let rare = RARE.map(|rare| name(rare, 1));
        let all = codes.chain(stops).chain(names).chain(rare);
        let lacking = all.filter(|&(_, count, least)| count.copied().unwrap_or(0) < least);
        lacking
            .map(|(name, count, _)| format!("{name}: {count:?}"))
            .collect()
    }

    fn see(&mut self, name: &'static str, happens: bool) {
        let known = NAMES.contains(&name) || RARE.contains(&name);
        assert!(known, "{name}");
        add(&mut self.names, name, usize::from(happens));
    }

    pub fn sheet(&mut self, accepted: bool) {
        self.see("an accepted sheet", accepted);
        self.see("a refused sheet", !accepted);
    }

    /// The chains after so many steps were looked at.
    pub fn looked(&mut self, run: &Recorded, after: u64) {
        let steps = run.history.steps();
        self.see("after no step", after == 0);
        self.see("after a step in the middle", 0 < after && after < steps);
        self.see("after more steps than are made", after > steps);
        let state = run.state(after);
        self.see("two objects in each other", in_each_other(state));
        if after >= steps && any_object(state) {
            add(&mut self.stops, run.stop, 1);
            self.see("main returned, cells are filled", run.stop == Stop::Done);
            let in_call = run.stop == Stop::FuelSpent && state.frames.len() > 1;
            self.see("fuel spent in a call", in_call);
        }
    }

    /// What a step does that no link shows.
    pub fn step(&mut self, run: &Recorded, step: u64) {
        let (before, after) = (run.state(step - 1), run.state(step));
        let operation = due(run, step - 1);
        let depth = before.frames.len() - 1;
        let here = |index| Location::Variable { depth, index };
        let matters = match operation {
            Operation::Set { to, .. }
            | Operation::Add { to, .. }
            | Operation::Subtract { to, .. }
            | Operation::Less { to, .. }
            | Operation::Take { to }
            | Operation::Size { to, .. } => here(to).content(before) != here(to).content(after),
            Operation::JumpIfZero { .. } | Operation::Put { .. } => any_object(after),
            _ => false,
        };
        add(&mut self.codes, operation.code(), usize::from(matters));
        if let Operation::Return { value: Some(value) } = operation {
            let object = holds_object(before, here(value));
            self.see("a result dropped", object && !keeps(run, before));
        }
    }

    /// A chain and what the location holds.
    pub fn chain(&mut self, run: &Recorded, at: Location, held: Held, chain: &[Link]) {
        self.chains += 1;
        self.see("more than 8 links", chain.len() > 8);
        let locations: BTreeSet<Location> = chain.iter().map(|link| link.at).collect();
        self.see("one location twice", locations.len() < chain.len());
        self.see("one procedure at two depths", at_two_depths(chain));
        let sets = generic_sets(run, chain);
        let differ = sets.iter().any(|set| *set != sets[0]);
        self.see("two sets of ?R in a chain", differ);
        let last = chain.last().map(|link| &link.origin);
        let amplified = matches!(last, Some(Origin::Amplified { .. }));
        self.see("amplified in a longer chain", amplified && chain.len() > 1);
        let own =
            matches!(at, Location::Cell { object, .. } if held.value == Value::Object(object));
        self.see("an object in its own slot", own);
        for link in chain {
            self.link(run, held, link);
        }
    }

    fn link(&mut self, run: &Recorded, held: Held, link: &Link) {
        let operation = due(run, link.step - 1);
        add(&mut self.codes, operation.code(), 1);
        let before = link.at.content(run.state(link.step - 1));
        let another = before.is_some_and(|before| before.value != held.value);
        let replaced = another && holds_object(run.state(link.step - 1), link.at);
        match link.at {
            Location::Variable { .. } => {
                // A formal is a variable of another frame, or of none.
                let replaced = replaced && operation.code() != 16;
                self.see("a variable with another object before", replaced);
            }
            Location::Cell { .. } => self.see("a cell with another object before", replaced),
        }
        match link.origin {
            Origin::Made => {
                let array = operation.code() == 9;
                self.see(
                    if array {
                        "an array made"
                    } else {
                        "a record made"
                    },
                    true,
                );
            }
            Origin::Amplified { procedure, formal } => {
                let variable = &run.program.procedures[procedure].variables[formal];
                let need = variable.need.map(|need| run.program.qualified[need].rights);
                let need = need.expect("formals have a need");
                let common = held.rights.members().any(|right| need.contains(right));
                self.see("amplified, need has the right", common);
                self.see(
                    "amplified, need lacks the right",
                    !need.includes(&held.rights),
                );
            }
            Origin::BoundFrom { from, ref through } => {
                self.see("bound to itself", from == link.at);
                self.bound(run, held, link, through);
            }
            Origin::Stays | Origin::GivenUp => panic!("{link:?} is no link"),
        }
    }

    fn bound(&mut self, run: &Recorded, held: Held, link: &Link, through: &[Read]) {
        let is_generic = |read: &Read| run.program.qualified[read.qualified].kind == Kind::Generic;
        let uses = |read: &Read| run.program.uses_generic(read.qualified);
        match (due(run, link.step - 1), through) {
            (Operation::Bind { .. } | Operation::GetSlot { .. }, [own]) => {
                self.see("?R as a bound variable", uses(own));
            }
            (Operation::Fetch { array, index, .. }, [element, _]) => {
                self.see("?R as a fetched element", uses(element));
                let cell = fetched(run.state(link.step - 1), array, index);
                let fewer = run.program.read(*element).rights != cell.rights;
                self.see("fetched with fewer rights than the cell's", fewer);
            }
            (Operation::Store { .. }, [element]) => {
                self.see("?R as a stored element", uses(element))
            }
            (Operation::SetSlot { .. }, [_]) => {}
            (Operation::Call { procedure, .. }, [need, inner]) => {
                let both = [need, inner];
                self.see("?R as need and inner", both.into_iter().all(is_generic));
                let arrays = both.into_iter().all(|read| uses(read) && !is_generic(read));
                self.see("an array of ?R as need and inner", arrays);
                self.call(run, held, link, procedure, inner);
            }
            (Operation::Return { .. }, [result, kept]) => {
                self.see("?R as result", is_generic(result));
                self.see(
                    "an array of ?R as result",
                    uses(result) && !is_generic(result),
                );
                self.see("?R as the kept variable", uses(kept));
            }
            (operation, through) => panic!("{operation:?} through {through:?}"),
        }
    }

    /// A formal that is bound and not amplified.
    fn call(&mut self, run: &Recorded, held: Held, link: &Link, procedure: usize, inner: &Read) {
        let callee = &run.program.procedures[procedure];
        let generic = run.program.uses_generic(inner.qualified);
        let other = callee.owner.is_some() && !generic;
        self.see("bound to another type in the owner's module", other);
        let kind = run.state(link.step).kind(held.value);
        let own = callee.owner.map(|of| Kind::Record { of }) == Some(kind);
        self.see("the owner's type bound to ?R in its module", own && generic);
        let caller = run
            .state(link.step - 1)
            .frames
            .last()
            .expect("a frame works");
        let differs = inner.reading.rights() != caller.set;
        let caller = &run.program.procedures[caller.procedure];
        let other_set = generic && caller.bound.is_some() && differs;
        self.see("?R settled to another set than the caller's", other_set);
    }
}

/// The instruction that is due after so many steps.
fn due(run: &Recorded, after: u64) -> Operation {
    let frame = run.state(after).frames.last().expect("a frame works");
    run.program.procedures[frame.procedure].instructions[frame.next].operation
}

/// Whether the call by which the frame that works was opened keeps a result.
fn keeps(run: &Recorded, state: &State) -> bool {
    let caller = &state.frames[state.frames.len() - 2];
    let instructions = &run.program.procedures[caller.procedure].instructions;
    match instructions[caller.next - 1].operation {
        Operation::Call { result, .. } => result.is_some(),
        other => panic!("no frame is opened by {other:?}"),
    }
}

fn any_object(state: &State) -> bool {
    let mut all = Location::all(state).into_iter();
    all.any(|location| holds_object(state, location))
}

fn holds_object(state: &State, location: Location) -> bool {
    let content = location.content(state);
    matches!(
        content,
        Some(Held {
            value: Value::Object(_),
            ..
        })
    )
}

/// The cell that a fetch reads.
fn fetched(state: &State, array: usize, index: usize) -> Held {
    let variables = &state.frames.last().expect("a frame works").variables;
    match [array, index].map(|number| variables[number].map(|held| held.value)) {
        [Some(Value::Object(object)), Some(Value::Integer(index))] => {
            let cell = state.objects[object].cells[index as usize];
            cell.expect("a fetched cell is filled")
        }
        other => panic!("nothing is fetched by {other:?}"),
    }
}

/// Whether a cell holds an object, a cell of which holds the first one's.
fn in_each_other(state: &State) -> bool {
    let held = |object: usize| {
        let cells = state.objects[object].cells.iter().flatten();
        cells.filter_map(move |held| match held.value {
            Value::Object(inside) if inside != object => Some(inside),
            _ => None,
        })
    };
    let mut objects = 0..state.objects.len();
    objects.any(|object| held(object).any(|inside| held(inside).any(|back| back == object)))
}

/// Whether a value went through two frames of one procedure, one above the
/// other.
fn at_two_depths(chain: &[Link]) -> bool {
    let mut depths: BTreeMap<usize, BTreeSet<usize>> = BTreeMap::new();
    for link in chain {
        if let Origin::BoundFrom {
            from: Location::Variable { depth, .. },
            ..
        } = link.origin
        {
            depths
                .entry(link.place.procedure)
                .or_default()
                .insert(depth);
        }
    }
    depths.values().any(|depths| depths.len() > 1)
}

/// The sets that ?R is read with in a chain.
fn generic_sets(run: &Recorded, chain: &[Link]) -> Vec<Rights> {
    let through = chain.iter().flat_map(|link| match &link.origin {
        Origin::BoundFrom { through, .. } => &through[..],
        _ => &[],
    });
    through
        .filter(|read| run.program.uses_generic(read.qualified))
        .filter_map(|read| match read.reading {
            Reading::Instance { rights, .. } => Some(rights),
            _ => None,
        })
        .collect()
}
