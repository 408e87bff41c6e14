//! The benchmark: compiles and whole searches of our code beside the Rust, as two Markdown tables of microseconds and ratios.

mod blocks;
mod clock;
mod figures;
#[path = "../../oracle/src/knapsack.rs"]
#[allow(dead_code)] // the oracle's own, of which a part is used here
mod knapsack;
mod ours;
mod same;
#[path = "../../oracle/src/tables.rs"]
#[allow(dead_code)] // the oracle's own, of which the numbers of rows are used here
mod tables;
mod theirs;

use std::fmt::Debug;
use std::hint::black_box;

use ddo::unpatched::Mdd;
use ddo::{CompilationType, DecisionDiagram, State, FRONTIER, LAST_EXACT_LAYER};
use jambtulip::{Cut, Mode, Question, Record, Terms};

use blocks::Blocks;
use figures::{heading, Figures};
use ours::Ours;
use same::Taken;
use theirs::Theirs;

/// Each figure is the mean over the problems of these seeds.
const SEEDS: std::ops::RangeInclusive<u64> = 1..=5;

const WIDTHS: [usize; 5] = [1, 4, 16, 64, 256];

/// A search of more picks isn't timed.
const MOST_PICKS: u64 = 4_000;

fn main() {
    compiles();
    searches();
}

trait Diagram: DecisionDiagram<State = State> + Default + Debug {}
impl<D: DecisionDiagram<State = State> + Default + Debug> Diagram for D {}

/// Takes an answer, so that no compiler leaves out the work for it.
fn use_up<T>(answer: T) {
    black_box(answer);
}

/// A question about the root record, with no lower bound.
fn about_root(page: u64, width: usize, mode: Mode, cut: Cut) -> Question {
    Question { page, width: width as u64, mode, cut, lower: i64::MIN, root: Record::root(page) }
}

fn compile_of<D: Diagram>(blocks: &Blocks, width: usize, mode: Mode, cut: Cut) -> Figures {
    let question = about_root(blocks.page, width, mode, cut);
    let comp_type = match mode {
        Mode::Exact => CompilationType::Exact,
        Mode::Restricted => CompilationType::Restricted,
        Mode::Relaxed => CompilationType::Relaxed,
    };
    let (mut ours, mut cleared, mut theirs) = (Ours::new(blocks, width), Ours::new(blocks, width), Theirs::<D>::new(blocks));
    let root = theirs.root();
    let found = ours.compile(question);
    let answer = theirs.compile(comp_type, width, isize::MIN, &root);
    let nodes = same::compiled(&found, &ours.scratch, &theirs, &answer) as f64;
    let [ours, cleared, theirs] = clock::times([
        &mut || use_up(ours.compile(question)),
        &mut || {
            cleared.clear();
            use_up(cleared.compile(question));
        },
        &mut || use_up(theirs.compile(comp_type, width, isize::MIN, &root)),
    ]);
    Figures { ours, cleared, theirs, nodes, ..Figures::default() }
}

fn mean_compile(items: usize, width: usize, mode: Mode, cut: Cut) -> Figures {
    let run = match cut {
        Cut::LastExactLayer => compile_of::<Mdd<State, LAST_EXACT_LAYER>>,
        Cut::Frontier => compile_of::<Mdd<State, FRONTIER>>,
    };
    let all = SEEDS.map(|seed| Some(run(&Blocks::random(items, seed), width, mode, cut)));
    Figures::mean(all).expect("every compile is timed")
}

fn compiles() {
    heading("| Items | Width | Nodes | Relaxed, last exact layer: ours | cleared | Rust | ratio |", &["Relaxed, frontier:", "Restricted:"]);
    for items in [8, 16, 32, 64] {
        for width in WIDTHS {
            let of = |mode, cut| mean_compile(items, width, mode, cut);
            let last = of(Mode::Relaxed, Cut::LastExactLayer);
            let frontier = of(Mode::Relaxed, Cut::Frontier);
            let restricted = of(Mode::Restricted, Cut::LastExactLayer);
            let first = format!("{:.1} | {:.1} | {:.1} | {:.2}", last.ours, last.cleared, last.theirs, last.ratio());
            println!("| {items} | {width} | {:.0} | {first} | {} | {} |", last.nodes, frontier.times(), restricted.times());
        }
    }
    println!();
}

fn search_of<D: Diagram>(blocks: &Blocks, width: usize, cut: Cut) -> Option<Figures> {
    let terms = Terms { page: blocks.page, width: width as u64, cut };
    let (mut ours, mut theirs) = (Ours::new(blocks, width), Theirs::<D>::new(blocks));
    let Taken { picks, nodes } = same::searched(&mut ours, &mut theirs, terms, MOST_PICKS)?;
    let [ours, theirs] = clock::times([&mut || use_up(ours.search(terms)), &mut || use_up(theirs.search(width))]);
    Some(Figures { ours, theirs, nodes: nodes as f64, picks: picks as f64, ..Figures::default() })
}

fn mean_search(items: usize, width: usize, cut: Cut) -> Option<Figures> {
    let run = match cut {
        Cut::LastExactLayer => search_of::<Mdd<State, LAST_EXACT_LAYER>>,
        Cut::Frontier => search_of::<Mdd<State, FRONTIER>>,
    };
    Figures::mean(SEEDS.map(|seed| run(&Blocks::random(items, seed), width, cut)))
}

/// The columns of a search.
fn columns(figures: Option<Figures>) -> String {
    let said = |f: Figures| format!("{:.0} | {:.0} | {}", f.picks, f.nodes, f.times());
    figures.map_or(["–"; 5].join(" | "), said)
}

fn searches() {
    heading("| Items | Width |", &["Last exact layer: picks | nodes |", "Frontier: picks | nodes |"]);
    for items in [8, 16, 24] {
        for width in WIDTHS {
            let [last, frontier] = [Cut::LastExactLayer, Cut::Frontier].map(|cut| columns(mean_search(items, width, cut)));
            println!("| {items} | {width} | {last} | {frontier} |");
        }
    }
}
