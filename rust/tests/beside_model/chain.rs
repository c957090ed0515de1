//! Places that follow one another. The chain figure beside the model's, in every way in which a few places can do so (clauses 9.1 to 9.3),
//! and held to what it promises on lines on which everybody else does as they like (clause 9.4).

use std::iter::successors;

use justrave::{sys, Arbiter, SlotAnswer, Slots, Transfers};

use crate::model::{Requestor, State, Table, MAX_PLACES, OLD_PLACES};
use crate::support::calls::{self, answer_of, turned_by_model, turned_by_product, Turned};
use crate::support::chance::{rounds, Chance};
use crate::support::names::{self, NOBODY};
use crate::support::states::{damage, invented, invented_on};
use crate::support::tables;
use crate::support::tally::Tally;
use crate::support::words::{state_of, words_of};

/// What stands in an answer before a call.
const UNTOUCHED: u64 = 0xA5A5_A5A5_A5A5_A5A5;

/// The outcome through the exported function, and an answer of so many words after it.
fn by_product(words: &[u64], place: usize, names: &[u8], length: usize) -> (Result<(), Turned>, Vec<u64>) {
    // lent is memory that can be written, so that a call shows that writes where it should only read
    let (mut state, mut following, mut answer) = (words.to_vec(), names.to_vec(), vec![UNTOUCHED; length]);
    let (of, by, to) = (state.as_mut_ptr(), following.as_mut_ptr(), answer.as_mut_ptr());
    // SAFETY: all three have their lengths behind them, and are of this function.
    let outcome = unsafe { sys::justrave_chain(of, words.len(), place, by, names.len(), to, length) };
    assert_eq!((&state[..], &following[..]), (words, names), "state and names are only read");
    (answer_of(outcome).map_err(turned_by_product), answer)
}

/// What the exported function, the wrapper and the model tell: the figure, or a refusal that leaves the answer alone.
fn chain<const ROOM: usize>(state: &State<ROOM>, place: usize, names: &[u8], tally: &mut Tally) -> Result<u64, Turned> {
    let follows = names::followed(names);
    let model = state.chain(place, &follows).map_err(turned_by_model);
    let product = by_product(&words_of(state), place, names, 1);
    let must = (model.map(|_| ()), vec![model.unwrap_or(UNTOUCHED)]);
    assert_eq!(product, must, "chain of {place}, {names:?} on {state:?}: product (left) and model");
    let wrapper = line(state).chain(place, &follows).map(|figure| figure.0).map_err(turned_by_product);
    assert_eq!(wrapper, model, "chain of {place}, {names:?} on {state:?}: wrapper (left) and model");
    tally.add("chain", &model);
    model
}

fn line<const ROOM: usize>(state: &State<ROOM>) -> Arbiter<ROOM> {
    Arbiter::from_words(&words_of(state)).expect("as many words as there is room for")
}

/// A place, the one that it follows, and so on; an absent one follows nobody.
fn links_from(place: usize, follows: &[Option<usize>]) -> impl Iterator<Item = usize> + '_ {
    successors(Some(place), |&link| follows.get(link).copied().flatten())
}

/// The chain that ends at a place, from its first link on. None where it leads to an absent place or round a circle.
fn chain_to(place: usize, follows: &[Option<usize>]) -> Option<Vec<usize>> {
    let mut links: Vec<usize> = links_from(place, follows).take(follows.len() + 1).collect();
    links.reverse();
    (links.len() <= follows.len() && links.iter().all(|&link| link < follows.len())).then_some(links)
}

/// How many calls were met of each kind: a test that never met one has not tested it.
#[derive(Debug, Default)]
struct Met {
    /// Figures of chains of one link, of two and of more.
    one: u64,
    two: u64,
    more: u64,
    /// Refused 11 and 16 for what lies beside the asked chain, which is a right one.
    absent_beside: u64,
    circle_beside: u64,
    /// Refused 16 although the asked place is on no circle: it leads into one.
    led_in: u64,
}

impl Met {
    fn add(&mut self, told: &Result<u64, Turned>, place: usize, follows: &[Option<usize>]) {
        let links = chain_to(place, follows).map_or(0, |links| links.len());
        let is_met_again = links_from(place, follows).skip(1).take(follows.len()).any(|link| link == place);
        match told {
            Ok(_) => {
                self.one += u64::from(links == 1);
                self.two += u64::from(links == 2);
                self.more += u64::from(links > 2);
            }
            Err((11, ..)) => self.absent_beside += u64::from(links > 0),
            Err((16, ..)) => {
                self.circle_beside += u64::from(links > 0);
                self.led_in += u64::from(links == 0 && !is_met_again);
            }
            Err(_) => {}
        }
    }

    /// Each kind came up so often, where there are places enough for it.
    fn expect<const ROOM: usize>(&self, often: u64) {
        println!("room for {ROOM}: {self:?}");
        assert!(self.one > often);
        assert!(ROOM < 2 || self.two.min(self.absent_beside).min(self.circle_beside).min(self.led_in) > often);
        assert!(ROOM < 3 || self.more > often);
    }
}

/// The figure is what the product itself answers for one transfer at each link, added up.
fn check_sum<const ROOM: usize>(state: &State<ROOM>, links: &[usize], figure: u64) {
    let finish = |&link: &usize| line(state).figures(link, Transfers(1)).expect("the link is a place").finish.0;
    assert_eq!(figure, links.iter().map(finish).sum::<u64>(), "{links:?} on {state:?}");
}

/// States and names of every kind; what stands past the last place, which any byte may, changes nothing.
fn names_of_every_kind_in_room<const ROOM: usize>(many: u64) {
    let mut chance = Chance::of(&format!("names, room for {ROOM}"));
    let (mut tally, mut met) = (Tally::default(), Met::default());
    for _ in 0..rounds(many) {
        let state: State<ROOM> = invented(&mut chance);
        let (place, count) = (calls::place(&mut chance, &state), state.table.count as usize);
        let mut names = names::any(&mut chance, count, ROOM);
        let told = chain(&state, place, &names, &mut tally);
        let follows = &names::followed::<ROOM>(&names)[..count];
        met.add(&told, place, follows);
        if let Ok(figure) = told {
            check_sum(&state, &chain_to(place, follows).expect("the chain ends"), figure);
        }
        let other = chance.bytes(ROOM - count);
        names[count..].copy_from_slice(&other);
        assert_eq!(chain(&state, place, &names, &mut tally), told, "names past place {count} were read");
    }
    tally.expect("chain", &[0, 11, 16]);
    met.expect::<ROOM>(many / 200);
}

#[test]
fn names_of_every_kind() {
    names_of_every_kind_in_room::<1>(10_000);
    names_of_every_kind_in_room::<4>(10_000);
    names_of_every_kind_in_room::<5>(10_000);
    names_of_every_kind_in_room::<OLD_PLACES>(5_000);
    names_of_every_kind_in_room::<MAX_PLACES>(3_000);
}

/// On words that break a rule every chain is refused 23, whatever is asked.
#[test]
fn damaged_words() {
    let (mut chance, mut tally) = (Chance::of("chains on damaged words"), Tally::default());
    let mut unsound = 0;
    for _ in 0..rounds(10_000) {
        let state: State<5> = invented(&mut chance);
        let mut words = words_of(&state);
        damage(&mut chance, &mut words);
        let names = names::any(&mut chance, state.table.count as usize, 5);
        let told = chain::<5>(&state_of(&words), calls::place(&mut chance, &state), &names, &mut tally);
        unsound += u64::from(told == Err((23, None, true)));
    }
    tally.expect("chain", &[0, 11, 16, 23]);
    assert!(unsound > 1_000, "{unsound}");
}

/// 255 comes exactly where a length is wrong, whatever else is: the words of some room, a name for each of its places, and an answer of
/// one word are right.
#[test]
fn memory_of_every_length() {
    let mut chance = Chance::of("lengths of a chain call");
    let (mut wrong, mut right) = (0, 0);
    for _ in 0..rounds(20_000) {
        let state: State<5> = invented(&mut chance);
        let mut words = words_of(&state);
        let place = calls::place(&mut chance, &state);
        let names = names::any(&mut chance, state.table.count as usize, 5);
        let names: Vec<u8> = names.into_iter().chain([NOBODY; 12]).take(chance.pick(&[5, 5, 5, 4, 6, 0, 17])).collect();
        // the last is as many as a room for one place too many would have
        words.resize(chance.pick(&[33, 33, 33, 27, 39, 32, 34, 0, 3 + 6 * (MAX_PLACES + 1)]), 0);
        let length = chance.pick(&[1, 1, 1, 0, 2]);
        let is_right = [(27, 4), (33, 5), (39, 6)].contains(&(words.len(), names.len())) && length == 1;
        let (outcome, answer) = by_product(&words, place, &names, length);
        assert_eq!(outcome == Err((255, None, false)), !is_right, "{} words, {} names", words.len(), names.len());
        assert!(outcome.is_ok() || answer.iter().all(|&word| word == UNTOUCHED));
        wrong += u64::from(!is_right);
        right += u64::from(outcome.is_ok());
    }
    assert!(wrong > 1_000 && right > 500, "{wrong} and {right}");
}

/// Up to four places with finish figures of 2, 8, 21 and 72 slots: chains of different links have different sums.
fn few_places(count: usize) -> State<5> {
    let mut table = Table { denominator: 60, count: count as u64, ..Table::default() };
    for (row, rate) in table.requestors.iter_mut().zip([30, 10, 4, 1]).take(count) {
        *row = Requestor { rate, burst: 60, need: 1, within: 72 };
    }
    State::start_numbers(&table, 0).expect("the table is accepted")
}

/// So many places, each of which follows any of them, one that is absent, or nobody: the ways to do that have numbers from 0 on.
fn way(number: usize, count: usize) -> Vec<u8> {
    let name = |place: usize| match number / (count + 2).pow(place as u32) % (count + 2) {
        followed if followed <= count => followed as u8,
        _ => NOBODY,
    };
    (0..count).map(name).collect()
}

/// Asks for each place, and counts what is accepted, refused 11 and refused 16.
fn count_told(state: &State<5>, names: &[u8], tally: &mut Tally, told: &mut [usize; 3]) {
    let count = state.table.count as usize;
    for place in 0..count {
        match chain(state, place, names, tally) {
            Ok(_) => told[0] += 1,
            Err((11, None, false)) => told[1] += 1,
            Err((16, Some(_), false)) => told[2] += 1,
            other => panic!("{names:?}: {other:?}"),
        }
    }
    assert_eq!(chain(state, count, names, tally), Err((11, None, false)), "there is no place {count}");
}

/// All of these ways, each place asked for, and with each way past the last place nobody, a place, an absent one and a circle. How many
/// are accepted is known beforehand: those without an absent name or a circle are the rooted forests of so many nodes, of which there
/// are (N + 1) to the power N - 1.
#[test]
fn every_way_in_which_a_few_places_follow() {
    for count in 1..=4 {
        let (state, mut tally) = (few_places(count), Tally::default());
        let mut told = [0_usize; 3];
        let past = [NOBODY, 0, 254, count as u8];
        for number in 0..(count + 2).pow(count as u32) {
            for name in past {
                let mut names = way(number, count);
                names.resize(5, name);
                count_told(&state, &names, &mut tally, &mut told);
            }
        }
        let (all, present) = ((count + 2).pow(count as u32), (count + 1).pow(count as u32));
        let forests = present / (count + 1);
        let calls = |ways: usize| past.len() * count * ways;
        assert_eq!(told, [forests, all - present, present - forests].map(calls), "{count} places");
    }
}

/// What others do between two slots: posts to the places that are free for them, as many as they like. A full backlog takes no more.
fn others_post(chance: &mut Chance, line: &mut Arbiter, free: &[usize], often: u64) {
    for &place in free {
        if chance.one_in(often) {
            line.post(place, Transfers(chance.pick(&[1, 1, 2, 40, 65_535]))).ok();
        }
    }
}

/// Does a slot, and tells whether it is this place's.
fn grants(line: &mut Arbiter, place: usize) -> bool {
    matches!(line.slot().expect("a slot is left"), SlotAnswer::Granted(_, granted) if granted == place)
}

fn waits(line: &Arbiter, place: usize) -> bool {
    line.account(place).expect("the place is there").backlog != Transfers(0)
}

/// The links use their credit up on transfers of their own, in some runs, until none of them waits any more.
fn use_credit_up(chance: &mut Chance, line: &mut Arbiter, links: &[usize], others: &[usize]) {
    for &link in links {
        line.post(link, Transfers(chance.pick(&[0, 0, 1, 3, 5]))).expect("there is room for a few");
    }
    let often = chance.pick(&[2, 10, 40]);
    for _ in 0..20_000 {
        if !links.iter().any(|&link| waits(line, link)) {
            return;
        }
        others_post(chance, line, others, often);
        line.slot().expect("a slot is left");
    }
    panic!("{links:?} still wait");
}

/// Others post one transfer each to links that are still to come, in runs in which they do so. Tells how many.
fn post_early(chance: &mut Chance, line: &mut Arbiter, later: &[usize], often: Option<u64>) -> u64 {
    let Some(often) = often else { return 0 };
    later.iter().filter(|&&link| chance.one_in(often) && line.post(link, Transfers(1)).is_ok()).count() as u64
}

/// What it took to carry a chain out: so many slots, and so many posts of others to links that were still to come.
struct Carried {
    slots: u64,
    early: u64,
}

/// Posts link after link, each as soon as the one before it was granted. It takes no more slots than the figure says, or it fails. All the
/// while, and between a grant and the next link's post too, everybody posts who is not a link still to come; in some runs to those too.
/// None where such a link still waits when its turn comes: nothing is promised to it then.
fn carry_out(chance: &mut Chance, line: &mut Arbiter, links: &[usize], figure: u64) -> Option<Carried> {
    let (mut left, mut early, often) = (figure, 0, chance.pick(&[1, 2, 10, 40]));
    let early_often = chance.pick(&[None, Some(5), Some(20), Some(60)]);
    let places = line.standing().expect("the state is sound").places;
    for (at, &link) in links.iter().enumerate() {
        if waits(line, link) {
            assert!(early > 0, "link {at} of {links:?} waits, and nobody posted to it");
            return None;
        }
        line.post(link, Transfers(1)).expect("there is room for one");
        let later = &links[at + 1..];
        // one place too many: posts to it are refused
        let free: Vec<usize> = (0..=places).filter(|place| !later.contains(place)).collect();
        others_post(chance, line, &free, often);
        let passed = (1..=left).find(|_| {
            early += post_early(chance, line, later, early_often);
            let granted = grants(line, link);
            others_post(chance, line, &free, often);
            granted
        });
        left -= passed.unwrap_or_else(|| panic!("link {at} of {links:?} is not granted within {figure} slots"));
    }
    Some(Carried { slots: figure - left, early })
}

/// A line as its start left it, on which the links then used their credit up.
fn started_line(chance: &mut Chance, table: &Table, links: &[usize]) -> Arbiter {
    let mut line = Arbiter::start(&table.bytes(), Slots(0)).expect("the table is accepted");
    let others: Vec<usize> = (0..table.count as usize).filter(|place| !links.contains(place)).collect();
    use_credit_up(chance, &mut line, links, &others);
    line
}

/// A line that no start made: credits are anything sound, and others wait already. No link does, and there are slots enough.
fn invented_line(chance: &mut Chance, table: &Table, links: &[usize]) -> Arbiter {
    let mut state = invented_on(chance, *table);
    state.slot /= 2;
    for &link in links {
        state.accounts[link].backlog = 0;
    }
    line(&state)
}

/// How many runs there were of each kind: a test that never met one has not tested it.
#[derive(Debug, Default)]
struct Runs {
    /// Given up, because a link still waited when its turn came.
    given_up: u64,
    /// Carried out, and of these: with three links or more, with all of the figure taken, which was only ever seen of one link, and with
    /// posts to links still to come.
    carried: u64,
    long: u64,
    all_of_it: u64,
    early: u64,
    /// Carried out on a line that no start made, and of these: where no link had any credit.
    invented: u64,
    without_credit: u64,
}

impl Runs {
    fn add(&mut self, carried: &Carried, links: &[usize], figure: u64) {
        self.carried += 1;
        self.long += u64::from(links.len() >= 3);
        self.all_of_it += u64::from(carried.slots == figure);
        self.early += u64::from(carried.early > 0);
    }

    fn add_invented(&mut self, has_credit: bool) {
        self.invented += 1;
        self.without_credit += u64::from(!has_credit);
    }

    /// Most runs were carried out, and enough of each kind.
    fn expect(&self) {
        println!("{self:?}");
        assert!(self.carried > 3 * self.given_up);
        assert!(self.long > 600 && self.all_of_it > 500 && self.early > 200);
        assert!(self.invented > 1_500 && self.without_credit > 300);
    }
}

/// Names by which a place of a table has a chain.
fn names_of_a_chain(chance: &mut Chance, count: usize) -> Vec<u8> {
    if chance.one_in(2) {
        names::forest(chance, count)
    } else {
        names::one_chain(chance, count)
    }
}

/// Carries one chain out, on a line of either kind.
fn run_one(chance: &mut Chance, runs: &mut Runs) {
    let table = tables::tight_up_to(chance, 6);
    let count = table.count as usize;
    let (place, follows) = (chance.index(count), names::followed(&names_of_a_chain(chance, count)));
    let links = chain_to(place, &follows[..count]).expect("the chain ends");
    let is_invented = chance.one_in(2);
    let mut line =
        if is_invented { invented_line(chance, &table, &links) } else { started_line(chance, &table, &links) };
    let has_credit = links.iter().any(|&link| line.account(link).expect("the place is there").credit > 0);
    let figure = line.chain(place, &follows).expect("nothing is wrong with the names").0;
    match carry_out(chance, &mut line, &links, figure) {
        None => runs.given_up += 1,
        Some(carried) => {
            runs.add(&carried, &links, figure);
            if is_invented {
                runs.add_invented(has_credit);
            }
        }
    }
    assert_eq!(line.chain(place, &follows), Ok(Slots(figure)), "the figure is the table's");
}

/// Clause 9.4: on lines that others flood, the last link of a chain is granted within the figure. No credit is asked of the links. A chain
/// of one link often takes all of the figure; with more, the later ones save credit up while the first wait.
#[test]
fn the_last_link_is_granted_within_the_figure() {
    let mut chance = Chance::of("chains that are carried out");
    let mut runs = Runs::default();
    for _ in 0..rounds(10_000) {
        run_one(&mut chance, &mut runs);
    }
    runs.expect();
}

/// Table T with three transfers at place 0: the third is granted in slot 3 and leaves no credit. The next one takes all of the figure, 4
/// slots.
#[test]
fn a_figure_that_is_taken_whole() {
    let mut line = Arbiter::start(&[4, 2, 1, 8, 1, 4, 1, 4, 1, 7], Slots(0)).expect("the table is accepted");
    let figure = line.chain(0, &[None; MAX_PLACES]).expect("nobody follows").0;
    line.post(0, Transfers(3)).expect("there is room for three");
    line.run(&mut [0; 4]).expect("the run is accepted");
    line.post(0, Transfers(1)).expect("there is room for one");
    let granted: Vec<bool> = (0..4).map(|_| grants(&mut line, 0)).collect();
    assert_eq!((figure, granted), (4, vec![false, false, false, true]));
}
