//! Random stories of settings histories. Most runs that are added fit; the rest of the steps tries every refusal,
//! winds back and adds anew, reads versions back, and sets numbers kept that the room cannot hold.

use crate::generate::{random_of, refused_picture};
use crate::history::{changed, held, Change, Layout};
use crate::picture::read;
use crate::random::Random;
use crate::store::Store;
use crate::story::{Step, Story};
use crate::story_pictures::{is_small, some_first};
use crate::story_runs::Scene;

/// One of so many stories has a first picture that does not read, by turns for each of the numbers 1 to 10.
const REFUSED_EVERY: u64 = 10;

/// How many changes a room holds, mostly.
const ROOMS: [usize; 12] = [0, 1, 2, 5, 8, 8, 12, 12, 20, 20, 40, 80];

/// Up to so many kept changes all versions are read back at the end.
const SHORT_HISTORY: u32 = 12;

/// A stream of so many stories; the same seed gives the same stream.
pub fn stories(seed: u64, count: u64) -> Vec<u8> {
    let mut stream = Vec::new();
    for index in 0..count {
        story(&mut random_of(seed, index), index).write(&mut stream);
    }
    stream
}

/// One story, that of an index.
pub fn story(random: &mut Random, index: u64) -> Story {
    let first = match index % REFUSED_EVERY {
        0 => refused_picture(random, (index / REFUSED_EVERY % 10) as u8 + 1),
        _ => some_first(random),
    };
    let layout = Layout::of(&first).ok();
    let room = some_room(random, &first, layout.as_ref());
    let kept = some_kept(random, room.len() as u32);
    let checks_left = some_checks(random, &first);
    let beginning = Story { first, room, kept, steps: Vec::new() };
    let store = Store::of(&beginning);
    let mut telling = Telling { random, layout, store, steps: Vec::new(), checks_left, checked: Vec::new() };
    telling.tell();
    Story { steps: telling.steps, ..beginning }
}

/// A room, with zeros in it or with changes that nobody added.
fn some_room(random: &mut Random, first: &[u8], layout: Option<&Layout>) -> Vec<Change> {
    let length = match random.percent(2) {
        true => random.between(100, 1_000) as usize,
        false => random.pick(&ROOMS),
    };
    match layout {
        Some(layout) if random.percent(40) => {
            let scene = Scene { first, layout, held: &[] };
            (0..length).map(|_| some_garbage(random, &scene)).collect()
        }
        _ => vec![Change::default(); length],
    }
}

/// A change that names no byte, or one that fits nothing in particular.
fn some_garbage(random: &mut Random, scene: &Scene) -> Change {
    match random.percent(50) {
        true => scene.strange_change(random),
        false => Change { old: random.bits() as u8, ..scene.good_run(random, 1)[0] },
    }
}

/// How many changes of a room are kept at the beginning: mostly none.
fn some_kept(random: &mut Random, room: u32) -> u32 {
    match random.below(100) {
        0..=79 => 0,
        80..=96 => random.below(room as u64 + 1) as u32,
        _ => room + 1,
    }
}

/// How many versions that read a story may read back: the check of each takes long, above all where the picture is not
/// small.
fn some_checks(random: &mut Random, first: &[u8]) -> u32 {
    match first.len() {
        _ if is_small(first) => random.pick(&[0, 0, 0, 1, 1, 2]),
        0..=4_096 if random.percent(10) => 1,
        _ => 0,
    }
}

/// A story in the making, with the store as it stands after the steps so far.
struct Telling<'a> {
    random: &'a mut Random,
    layout: Option<Layout>,
    store: Store,
    steps: Vec<Step>,
    /// How many more versions that read may be read back. Those checked already take no time.
    checks_left: u32,
    checked: Vec<Vec<u8>>,
}

impl Telling<'_> {
    /// Tells the whole story. Often the first change breaks the picture, so that many versions can be read back.
    fn tell(&mut self) {
        if self.layout.is_some() && self.random.percent(50) {
            let run = self.with_scene(|random, scene| vec![scene.breaking_change(random)]);
            self.add(run);
        }
        for _ in 0..self.random.between(8, 22) {
            self.some_step();
        }
        if self.store.kept <= SHORT_HISTORY {
            for k in 0..=self.store.kept {
                self.version(k, self.store.first.len() as u32);
            }
        }
    }

    /// Any step.
    fn some_step(&mut self) {
        match self.random.below(100) {
            0..=44 => self.add_good(),
            45..=61 => self.add_bad(),
            62..=73 => self.wind_back(),
            74..=95 => self.some_version(),
            _ => self.set_kept(),
        }
    }

    /// Draws something with the scene as it stands. The first picture reads.
    fn with_scene<T>(&mut self, draw: impl Fn(&mut Random, &Scene) -> T) -> T {
        let layout = self.layout.as_ref().expect("the first picture reads");
        let held = held(&self.store.room, self.store.kept);
        draw(self.random, &Scene { first: &self.store.first, layout, held })
    }

    /// How many more changes the room takes.
    fn space(&self) -> usize {
        self.store.room.len().saturating_sub(self.store.kept as usize)
    }

    /// Adds a run that fits; now and then none, as many as the room takes, or some of a long room's many.
    fn add_good(&mut self) {
        let space = self.space();
        let few = self.random.between(1, 5) as usize;
        let length = match self.random.below(20) {
            0 => 0,
            1 | 2 if space <= 80 => space,
            3..=5 => space / 2,
            _ => few.min(space),
        };
        let run = self.some_run(|random, scene| scene.good_run(random, length));
        self.add(run);
    }

    /// Adds a run that is refused: for a change that names no byte, a wrong old byte, no room, or several of them.
    fn add_bad(&mut self) {
        let too_many = self.space() + self.random.pick(&[1, 1, 1, 2, 5]);
        let run = match self.random.below(8) {
            0..=2 => self.some_run(|random, scene| scene.strange_run(random)),
            3..=5 => self.some_run(|random, scene| scene.wrong_old_run(random)),
            6 => self.some_run(|random, scene| scene.good_run(random, too_many)),
            _ => self.some_run(|random, scene| too_many_and_wrong(random, scene, too_many)),
        };
        self.add(run);
    }

    /// A run of that kind; of any changes if the first picture does not read.
    fn some_run(&mut self, draw: impl Fn(&mut Random, &Scene) -> Vec<Change>) -> Vec<Change> {
        match self.layout {
            Some(_) => self.with_scene(draw),
            None => (0..self.random.below(4)).map(|_| any_change(self.random)).collect(),
        }
    }

    /// Adds a run.
    fn add(&mut self, run: Vec<Change>) {
        self.store.add(&run);
        self.steps.push(Step::Add(run));
    }

    /// Winds back, seldom to a version that there is not; after that mostly adds anew.
    fn wind_back(&mut self) {
        let kept = self.store.kept;
        let inside = self.random.below(kept as u64 + 1) as u32;
        let near = kept - kept.min(self.random.between(1, 4) as u32);
        let above = kept.saturating_add(1);
        let k = self.random.pick(&[kept, 0, inside, inside, near, near, near, above, u32::MAX]);
        let (number, _) = self.store.wind_back(k);
        self.steps.push(Step::WindBack(k));
        if number == 0 && self.random.percent(60) {
            self.add_good();
        }
    }

    /// Reads some version back, seldom one that there is not, into a buffer of some length.
    fn some_version(&mut self) {
        let kept = self.store.kept;
        let inside = self.random.below(kept as u64 + 1) as u32;
        let above = kept.saturating_add(self.random.pick(&[1, 1, 2, 3]));
        let k = self.random.pick(&[kept, kept, 0, inside, inside, inside, above, u32::MAX]);
        let length = self.store.first.len() as u32;
        let out_len =
            self.random.pick(&[length, length, length, length + 1, 2 * length, 0, length.saturating_sub(1)]);
        self.version(k, out_len);
    }

    /// Reads a version back, unless its check takes too long.
    fn version(&mut self, k: u32, out_len: u32) {
        if !self.takes_long(k, out_len) {
            self.steps.push(Step::Version { k, out_len });
        }
    }

    /// Would a version have to be checked for which no check is left? If one is left, it is used.
    fn takes_long(&mut self, k: u32, out_len: u32) -> bool {
        let Some(layout) = &self.layout else { return false };
        let Store { first, room, kept } = &self.store;
        if k > *kept || *kept as usize > room.len() || (out_len as usize) < first.len() {
            return false;
        }
        let version = changed(first, layout, held(room, k));
        if read(&version).is_err() || self.checked.contains(&version) {
            return false;
        }
        if self.checks_left == 0 {
            return true;
        }
        self.checks_left -= 1;
        self.checked.push(version);
        false
    }

    /// Sets the number kept: mostly above what the room holds, with a step or two on that; then back into it.
    fn set_kept(&mut self) {
        let room = self.store.room.len() as u32;
        let inside = self.random.below(room as u64 + 1) as u32;
        let kept = self.random.pick(&[inside, room, room + 1, room + 1, room + 5, u32::MAX, u32::MAX]);
        self.keep(kept);
        for _ in 0..self.random.between(1, 3) {
            match self.random.below(3) {
                0 => self.add_good(),
                1 => self.add_bad(),
                _ => self.some_version(),
            }
        }
        if self.store.kept > room {
            self.steps.push(Step::WindBack(inside));
            self.store.wind_back(inside);
        }
    }

    /// The caller keeps this number from here on.
    fn keep(&mut self, kept: u32) {
        self.store.kept = kept;
        self.steps.push(Step::SetKept(kept));
    }
}

/// A run that the room cannot take, with a wrong old byte or a change that names no byte in it.
fn too_many_and_wrong(random: &mut Random, scene: &Scene, length: usize) -> Vec<Change> {
    let mut run = scene.good_run(random, length);
    let at = random.below(length as u64) as usize;
    match random.percent(50) {
        true => run[at] = scene.strange_change(random),
        false => run[at].old ^= 1 << random.below(8),
    }
    run
}

/// A change of anything, for a first picture that has no layout.
fn any_change(random: &mut Random) -> Change {
    let numbers = [0, 0, 1, 2, 70, u32::MAX];
    let [port, part, at] = [(); 3].map(|_| random.pick(&numbers));
    Change { port, part, at, old: random.bits() as u8, new: random.bits() as u8 }
}
