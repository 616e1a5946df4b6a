//! Trees and cells: checked, listed, posted to, read, restored, their sheets and frames, and requests served over them.
use crate::buslink;
use crate::draft::{broken, Break, Draft, BREAKS};
use crate::input::{Call, Input};
use crate::listings;
use crate::paths;
use crate::random::Random;
use crate::requests;
use crate::sheets;
use crate::tally::{Reason, Tally};

const SERVED: usize = 120;

pub fn run(random: &Random, tally: &mut Tally, round: usize) {
    let draft = Draft::draw(random);
    let tree = draft.form();
    let mut cells = draft.cells(random);
    check(tally, &tree, &cells, Some([0, 0]));
    listings::whole(tally, &draft, &tree);
    listings::far(random, tally, &tree);
    begin(random, tally, &tree, draft.properties.len());
    let few = tree.len() > 10_000;
    for _ in 0..if few { SERVED / 6 } else { SERVED } {
        serve(random, tally, &draft, &tree, &mut cells);
    }
    for _ in 0..10 {
        post(random, tally, &draft, &tree, &mut cells);
        read(random, tally, &draft, &tree, &cells);
    }
    restore(random, tally, &draft, &tree, &cells);
    paths::run(random, tally, &draft, &cells);
    break_one(random, tally, &draft, round);
    change(random, tally, &draft);
}

/// The calls that look at a tree as a whole, and the numbers that the check of tree and cells and that of the tree must give.
pub fn check(tally: &mut Tally, tree: &[u8], cells: &[u8], numbers: Option<[u8; 2]>) {
    let inputs = [Input { tree, cells, ..Input::of(Call::Check) }, Input { tree, ..Input::of(Call::CheckTree) }];
    let seen = inputs.each_ref().map(|input| tally.compare(input).number);
    tally.expect(numbers.is_none_or(|numbers| numbers == seen), "the checks give the numbers meant", &inputs[0]);
    tally.compare(&Input { tree, ..Input::of(Call::CellsSize) });
    listings::near(tally, tree);
    sheets::near(tally, tree, cells);
    buslink::near(tally, tree, cells);
}

/// The same for a tree or cells that break a rule: 1.
pub fn check_broken(tally: &mut Tally, tree: &[u8], cells: &[u8], rule: Break) {
    check(tally, tree, cells, Some([1, u8::from(!rule.is_of_cells())]));
    if let Break::Step(sort) = rule {
        tally.meet(Some(Reason::Code(sort)));
    }
}

fn begin(random: &Random, tally: &mut Tally, tree: &[u8], properties: usize) {
    let wrong = random.pick(&[5 * properties + 5, 5 * properties + 1, (5 * properties).saturating_sub(1), 0]);
    let len = random.pick(&[5 * properties, 5 * properties, wrong]);
    let cells = random.bytes(len);
    tally.compare(&Input { tree, cells: &cells, ..Input::of(Call::BeginCells) });
}

/// Serves one request by a drawn transport; the cells go on to the next.
fn serve(random: &Random, tally: &mut Tally, draft: &Draft, tree: &[u8], cells: &mut Vec<u8>) {
    let transport = requests::transport(random);
    let address = requests::address(random);
    let bytes = requests::draw(random, draft, transport, address);
    let (call, least) = transport.call();
    let mut input = Input { tree, cells, bytes: &bytes, address, ..Input::of(call) };
    input.host = random.pick(&[0, 1, 1, 1, 1, 1, 2, 255]);
    input.room = random.room(least);
    let seen = tally.compare(&input);
    *cells = seen.lent.cells.to_vec();
}

/// Posts to any kind of place; the cells go on.
fn post(random: &Random, tally: &mut Tally, draft: &Draft, tree: &[u8], cells: &mut Vec<u8>) {
    let count = draft.properties.len();
    let mut input = Input { tree, cells, value: random.word(), ..Input::of(Call::Post) };
    input.place = place(random, count);
    input.ready = random.pick(&[0, 1, 1, 2, 255]);
    let seen = tally.compare(&input);
    *cells = seen.lent.cells.to_vec();
}

/// A place, mostly one that there is; others so that five times or sixteen times the place runs over 64 bits.
fn place(random: &Random, count: usize) -> usize {
    let far = [count, count + 1, 255, 256, 1 << 32, 1 << 60, usize::MAX, usize::MAX / 5 + 1, random.next() as usize];
    if count == 0 || random.once_in(5) {
        random.pick(&far)
    } else {
        random.below(count)
    }
}

/// The firmware's own reading, at any kind of place.
fn read(random: &Random, tally: &mut Tally, draft: &Draft, tree: &[u8], cells: &[u8]) {
    let place = place(random, draft.properties.len());
    tally.compare(&Input { tree, cells, place, ..Input::of(Call::Reading) });
}

/// Cells lent again after a restart, and a reading from them.
fn restore(random: &Random, tally: &mut Tally, draft: &Draft, tree: &[u8], cells: &[u8]) {
    let seen = tally.compare(&Input { tree, cells, ..Input::of(Call::RestoreCells) });
    read(random, tally, draft, tree, &seen.lent.cells);
}

/// Breaks one rule, each in its turn, and gives the tree to every call that checks it.
fn break_one(random: &Random, tally: &mut Tally, draft: &Draft, round: usize) {
    for turn in 0..4 {
        let rule = BREAKS[(4 * round + turn) % BREAKS.len()];
        let (tree, cells) = broken(random, draft, rule);
        check_broken(tally, &tree, &cells, rule);
        give_all(random, tally, draft, &tree, &cells);
    }
}

/// Changes bytes of a form at random: mostly unsound, now and then another sound tree.
fn change(random: &Random, tally: &mut Tally, draft: &Draft) {
    let mut tree = draft.form();
    let mut cells = draft.cells(random);
    for _ in 0..4 {
        if random.once_in(4) {
            random.mutate(&mut cells);
        } else if random.once_in(3) || tree.is_empty() {
            random.mutate(&mut tree);
        } else {
            let at = random.below(tree.len());
            tree[at] = random.byte();
        }
        check(tally, &tree, &cells, None);
        give_all(random, tally, draft, &tree, &cells);
        if random.once_in(2) {
            tree = draft.form();
            cells = draft.cells(random);
        }
    }
}

fn give_all(random: &Random, tally: &mut Tally, draft: &Draft, tree: &[u8], cells: &[u8]) {
    tally.compare(&Input { tree, cells, ..Input::of(Call::BeginCells) });
    read(random, tally, draft, tree, cells);
    restore(random, tally, draft, tree, cells);
    post(random, tally, draft, tree, &mut cells.to_vec());
    serve(random, tally, draft, tree, &mut cells.to_vec());
    serve(random, tally, draft, tree, &mut cells.to_vec());
}
