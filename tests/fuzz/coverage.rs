//! What the fuzzing has reached: by each rule of the fingerprint, each way in which a function can end, each answer in a history,
//! a crash of each function that stores; bad tables, and such as are not read; each way to start a history, and each format in
//! one; each moment of a script for a crash, a crash of each function that stores with a claim of every head open, and with
//! several in one tree; what claims leave of their nodes. Conversions, the paths of lookups and groups given back have files of
//! their own.
use crate::conversions::Conversions;
use crate::goals::*;
use crate::groups::Groups;
use crate::model::call::{Call, Function, Function::*, Lent};
use crate::model::ending::*;
use crate::model::fault::Fault;
use crate::model::format::check_given;
use crate::model::image::*;
use crate::model::left::Claimed;
use crate::model::node::LAST_LEVEL;
use crate::model::rule::*;
use crate::model::table::Table;
use crate::paths::Paths;
use crate::translations::Translations;
use std::collections::BTreeMap;

/// The claims open: in all, the most in one tree, and in the tree of the call's reel.
#[derive(Clone, Copy)]
pub struct Claims {
    pub all: u64,
    pub in_one_tree: u64,
    in_this_tree: u64,
}

impl Claims {
    pub const NONE: Claims = Claims { all: 0, in_one_tree: 0, in_this_tree: 0 };

    pub fn of(table: &Table, call: &Call) -> Claims {
        let in_one_tree = table.reels.keys().map(|&reel| table.claims_in(reel)).max().unwrap_or(0);
        Claims { all: table.claims(), in_one_tree, in_this_tree: table.claims_in(call.reel) }
    }

    pub fn max(self, other: Claims) -> Claims {
        Claims {
            all: self.all.max(other.all),
            in_one_tree: self.in_one_tree.max(other.in_one_tree),
            in_this_tree: self.in_this_tree.max(other.in_this_tree),
        }
    }
}

#[derive(Default)]
pub struct Coverage {
    pub conversions: Conversions,
    pub groups: Groups,
    pub paths: Paths,
    pub translations: Translations,
    /// By the image's rule too, where that counts.
    endings: BTreeMap<(Function, Ending, Option<Rule>), u64>,
    /// Of calls on images with a bad table: the answers, and where that is 4 for the table, those without it.
    bad_tables: BTreeMap<(Function, u64), u64>,
    /// Of calls answered on images that have what looks like a table where none is read.
    unread: BTreeMap<(Function, &'static str), u64>,
    answers: BTreeMap<(Function, u64, Rule), u64>,
    /// By what came before the format or the recovery, and by what the image held.
    starts: BTreeMap<(Rule, &'static str), u64>,
    /// The formats of histories: by the rules before and after, and those refused 16.
    formats: BTreeMap<(Rule, Rule), u64>,
    refused_tables: BTreeMap<Ending, u64>,
    /// Has in histories, by what it says.
    lookups: BTreeMap<(bool, Rule), u64>,
    /// By function, entries of its script, and how many of these were carried out.
    crashes: BTreeMap<(Function, usize, usize), u64>,
    /// Those in a function that was storing, by rule.
    storing: BTreeMap<(Function, Rule), u64>,
    /// Those with a claim of every head open, by the function that was storing.
    all_claimed: BTreeMap<Function, u64>,
    /// Those with several claims in one tree, by their number too.
    together: BTreeMap<(Function, u64), u64>,
    /// Those of a branch-out with another head's claim in its tree, by the entries of its script.
    branched: BTreeMap<usize, u64>,
    /// Why claims of histories were refused or answered where other heads were at work in the reel.
    beside: BTreeMap<&'static str, u64>,
    /// Which places claims left, by the node's size.
    lefts: BTreeMap<(u64, &'static str), u64>,
    deepest: u64,
    mixtures: u64,
    undone: u64,
    completed: u64,
    cut_recoveries: u64,
    refused_recoveries: u64,
}

/// What the image has that looks like a table and is none.
fn unread(words: &[u64]) -> Option<&'static str> {
    let lacking = || lacks(&stored_table(words));
    match (words[0], words[OWN_AT]) {
        (FIRST_EDITION, 0) | (EDITION, 1..) => None,
        (FIRST_EDITION, 1) if lacking() == 0 => Some(GOOD_IN_1),
        (FIRST_EDITION, _) => Some(BAD_IN_1),
        _ if words[TABLE_AT..][..TABLE_WORDS].iter().all(|&word| word == 0) => None,
        _ if lacking() == 0 => Some(GOOD_IN_2),
        _ => Some(BAD_IN_2),
    }
}

impl Coverage {
    /// A single call, on an image with these words.
    pub fn call(&mut self, function: Function, words: &[u64], ending: Ending) {
        let rule = Rule::of(words).filter(|&rule| rules(function, ending).contains(&Some(rule)));
        *self.endings.entry((function, ending, rule)).or_default() += 1;
        if ending.answer != 2 && !BAD_TABLES.contains(&ending) && is_bad(words) {
            self.bad_table(function, ending.answer);
        }
        let answered = ending.answer == 0 && READING.contains(&function);
        if let Some(kind) = if answered { unread(words) } else { None } {
            *self.unread.entry((function, kind)).or_default() += 1;
        }
    }

    /// A translation, which reads no image.
    pub fn translated(&mut self, lent: &Lent, words: u64, ending: Ending) {
        *self.endings.entry((Translate, ending, None)).or_default() += 1;
        self.translations.called(lent, words, ending);
    }

    /// The answer of a call on an image with a bad table, or the one that it would give if the table were taken.
    pub fn bad_table(&mut self, function: Function, answer: u64) {
        *self.bad_tables.entry((function, answer)).or_default() += 1;
    }

    /// A call in a history, on a book that goes by this rule.
    pub fn answer(&mut self, function: Function, answer: u64, rule: Rule) {
        *self.answers.entry((function, answer, rule)).or_default() += 1;
    }

    /// Has in a history.
    pub fn lookup(&mut self, yes: bool, rule: Rule) {
        *self.lookups.entry((yes, rule)).or_default() += 1;
    }

    /// An answered format in a history.
    pub fn format(&mut self, before: Rule, after: Rule) {
        *self.formats.entry((before, after)).or_default() += 1;
    }

    /// One that was refused 16.
    pub fn refused_table(&mut self, table: &[u8]) {
        if let Err(ending) = check_given(Some(table), Fault::None) {
            *self.refused_tables.entry(ending).or_default() += 1;
        }
    }

    pub fn format_start(&mut self, rule: Rule, refused: bool) {
        *self.starts.entry((rule, if refused { BY_SECOND_FORMAT } else { BY_FORMAT })).or_default() += 1;
    }

    /// A recovery of an image that was found, by what came before the one that ended.
    pub fn found_start(&mut self, rule: Rule, refused: bool, cut: bool, frames: bool) {
        for start in [attempts(refused, cut), if frames { ON_FRAMES } else { ON_NO_FRAMES }] {
            *self.starts.entry((rule, start)).or_default() += 1;
        }
    }

    /// A claim in a history that came as far as the other heads, with the table after it.
    pub fn claim(&mut self, answer: u64, table: &Table, call: &Call) {
        let others = table.claims_in(call.reel) - u64::from(answer == 0);
        let key = match answer {
            13 if table.claimed(call.reel, call.frame) => FRAME_TAKEN,
            13 => NODE_TAKEN,
            8 if others > 0 => NO_NODES,
            0 if others > 0 => ANSWERED,
            _ => return,
        };
        *self.beside.entry(key).or_default() += 1;
    }

    /// An answered claim, by its place and its node.
    pub fn left(&mut self, place: u64, claimed: &Claimed) {
        let above = claimed.size.wrapping_sub(1 + place);
        let kind = match claimed.left() {
            0 if above == 0 => NONE_AT_LAST,
            0 => NONE_BELOW,
            left if left == above => ALL_ABOVE,
            _ => SOME_ABOVE,
        };
        *self.lefts.entry((claimed.size, kind)).or_default() += 1;
        // Where it is the set word and the place just taken, one bit differs.
        if (claimed.locate ^ claimed.set).count_ones() != 1 {
            *self.lefts.entry((claimed.size, NOT_AS_SET)).or_default() += 1;
        }
    }

    /// A history, and the highest level in it.
    pub fn history(&mut self, deepest: u64) {
        self.deepest = self.deepest.max(deepest);
    }

    /// A crash after some of a script's entries, with so many claims open, on a book that goes by this rule.
    pub fn crash(&mut self, function: Function, entries: usize, cut: usize, claims: Claims, rule: Rule) {
        *self.crashes.entry((function, entries, cut)).or_default() += 1;
        if entries == 0 && function != Recover {
            return;
        }
        *self.storing.entry((function, rule)).or_default() += 1;
        if claims.all == HEADS {
            *self.all_claimed.entry(function).or_default() += 1;
        }
        if claims.in_one_tree > 1 {
            *self.together.entry((function, claims.in_one_tree)).or_default() += 1;
        }
        if function == Claim && BRANCH_OUTS.contains(&entries) && claims.in_this_tree > 1 {
            *self.branched.entry(entries).or_default() += 1;
        }
    }

    /// An image that a crash left and that was recovered; `tells` if the tables of before and after differ.
    pub fn mixture(&mut self, undone: bool, tells: bool) {
        self.mixtures += 1;
        self.undone += u64::from(tells && undone);
        self.completed += u64::from(tells && !undone);
    }

    pub fn cut_recovery(&mut self) {
        self.cut_recoveries += 1;
    }

    pub fn refused_recovery(&mut self) {
        self.refused_recoveries += 1;
    }

    /// One line for each function: how often it was called, and how often it gave each answer.
    fn table(answers: impl Iterator<Item = (Function, u64, u64)>) {
        let mut counts: BTreeMap<(Function, u64), u64> = BTreeMap::new();
        answers.for_each(|(function, answer, count)| *counts.entry((function, answer)).or_default() += count);
        // 15 is the bench program's.
        let all = || (0..=18).filter(|&answer| answer != 15);
        println!("{:8}{:>8}{}", "", "calls", all().map(|answer| format!("{:>8}", answer)).collect::<String>());
        for function in Function::ALL {
            let count = |answer: u64| counts.get(&(function, answer)).copied().unwrap_or(0);
            let column = |answer: u64| if count(answer) == 0 { format!("{:>8}", ".") } else { format!(" {:>7}", count(answer)) };
            let calls: u64 = all().map(count).sum();
            println!("{:8} {:>7}{}", function.name(), calls, all().map(column).collect::<String>());
        }
    }

    pub fn print_calls(&self) {
        println!("{} calls on single images, by function and answer:", self.endings.values().sum::<u64>());
        Coverage::table(self.endings.iter().map(|(key, &count)| (key.0, key.1.answer, count)));
    }

    pub fn print_histories(&self) {
        println!("{} operations in histories, by function and answer:", self.answers.values().sum::<u64>());
        Coverage::table(self.answers.iter().map(|(key, &count)| (key.0, key.1, count)));
        let by = |rule: Rule| self.answers.iter().filter(|(key, _)| key.2 == rule).map(|(_, count)| count).sum::<u64>();
        println!("{} of them on edition 1, {} on an own table; starts:", by(FIRST), by(OWN));
        self.starts.iter().for_each(|(key, count)| println!("{:8} {}: {}", count, named(key.0), key.1));
        let crashes: u64 = self.crashes.values().sum();
        let (cut, refused) = (self.cut_recoveries, self.refused_recoveries);
        println!("{} crashes, {} mixtures recovered, {} recoveries cut, {} refused", crashes, self.mixtures, cut, refused);
        println!("{} crashes with {} claims open", self.all_claimed.values().sum::<u64>(), HEADS);
        let (together, branched) = (self.together.values().sum::<u64>(), self.branched.values().sum::<u64>());
        println!("{} crashes with several claims in one tree, {} of them in a branch-out of it", together, branched);
        println!("where before and after differ: {} mixtures before, {} after", self.undone, self.completed);
        self.conversions.print();
        self.paths.print();
        self.groups.print();
        self.translations.print();
    }

    /// What should have been reached by calls and was not, and what was and should not.
    pub fn calls_missed(&self) -> Vec<String> {
        let on_each = |f: Function, ending: Ending| rules(f, ending).iter().map(move |&rule| (f, ending, rule));
        let of_each = |f: Function| endings(f).into_iter().flat_map(move |ending| on_each(f, ending));
        let all: Vec<_> = Function::ALL.iter().flat_map(|&f| of_each(f)).collect();
        let name =
            |key: &(Function, Ending, Option<Rule>)| format!("{} {} {}{}", key.0.name(), key.1.answer, key.1.shape, on(key.2));
        let mut lines = missed(&all, &self.endings, name);
        let all: Vec<_> = Function::ALL.iter().flat_map(|&f| beside_bad_table(f).into_iter().map(move |a| (f, a))).collect();
        let name = |key: &(Function, u64)| format!("{} {} on a bad table, but for that", key.0.name(), key.1);
        lines.extend(missed(&all, &self.bad_tables, name));
        let all: Vec<_> = READING.iter().flat_map(|&f| UNREAD.iter().map(move |&kind| (f, kind))).collect();
        lines.extend(missed(&all, &self.unread, |key| format!("{} answered on {}", key.0.name(), key.1)));
        let all: Vec<_> = SIZES.iter().flat_map(|&size| LEFTS.iter().map(move |&kind| (size, kind))).collect();
        lines.extend(missed(&all, &self.lefts, |key| format!("claim in a node of size {} that leaves {}", key.0, key.1)));
        let (conversions, paths) = (self.conversions.calls_missed(), self.paths.calls_missed());
        lines.extend([conversions, paths, self.groups.calls_missed(), self.translations.calls_missed()].concat());
        lines
    }

    /// The same for histories: answers, moments of scripts, crashes with all claims open.
    pub fn histories_missed(&self) -> Vec<String> {
        let by_each = |f: Function, rule: Rule| answers_by(f, rule).map(move |answer| (f, answer, rule));
        let of_each = |f: Function| RULES.iter().flat_map(move |&rule| by_each(f, rule));
        let all: Vec<_> = Function::ALL.iter().flat_map(|&f| of_each(f)).collect();
        let name = |key: &(Function, u64, Rule)| format!("{} {} in a history{}", key.0.name(), key.1, on(Some(key.2)));
        let mut lines = missed(&all, &self.answers, name);
        let name = |key: &(Rule, &str)| format!("a history's start, {}: {}", named(key.0), key.1);
        lines.extend(missed(&starts(), &self.starts, name));
        let all: Vec<_> = RULES.iter().flat_map(|&before| [SECOND, OWN].map(|after| (before, after))).collect();
        let name = |key: &(Rule, Rule)| format!("format in a history from {} to {}", named(key.0), named(key.1));
        lines.extend(missed(&all, &self.formats, name));
        lines.extend(missed(&REFUSED_TABLES, &self.refused_tables, |key| format!("format 16 in a history, {}", key.shape)));
        let all: Vec<_> = RULES.iter().flat_map(|&rule| [false, true].map(|yes| (yes, rule))).collect();
        let name = |key: &(bool, Rule)| format!("has in a history{}, yes: {}", on(Some(key.1)), key.0);
        lines.extend(missed(&all, &self.lookups, name));
        let all: Vec<_> = STORING.iter().flat_map(|&f| RULES.iter().map(move |&rule| (f, rule))).collect();
        lines.extend(missed(&all, &self.storing, |key| format!("crash in {}{}", key.0.name(), on(Some(key.1)))));
        let moments = |f: Function| scripts(f).iter().flat_map(move |&entries| (0..=entries).map(move |cut| (f, entries, cut)));
        let all: Vec<_> = Function::ALL.iter().flat_map(|&f| moments(f)).collect();
        lines
            .extend(missed(&all, &self.crashes, |key| format!("crash in {} after {} of {} entries", key.0.name(), key.2, key.1)));
        let claimed = |f: &Function| format!("crash in {} with {} claims open", f.name(), HEADS);
        lines.extend(missed(&STORING, &self.all_claimed, claimed));
        let all: Vec<_> = STORING.iter().flat_map(|&f| (2..=HEADS).map(move |claims| (f, claims))).collect();
        let together = |key: &(Function, u64)| format!("crash in {} with {} claims in one tree", key.0.name(), key.1);
        lines.extend(missed(&all, &self.together, together));
        let branched = |entries: &usize| format!("crash in a branch-out of {} entries beside another head", entries);
        lines.extend(missed(&BRANCH_OUTS, &self.branched, branched));
        let beside = |key: &&str| format!("claim of a history, {}", key);
        lines.extend(missed(&BESIDE, &self.beside, beside));
        let lefts: BTreeMap<&str, u64> = self.lefts.iter().map(|(key, &count)| (key.1, count)).collect();
        lines.extend(missed(&LEFTS[..4], &lefts, |kind| format!("claim of a history that leaves {}", kind)));
        if self.deepest < LAST_LEVEL {
            lines.push(format!("never reached: level {} in a history", LAST_LEVEL));
        }
        let (conversions, paths) = (self.conversions.histories_missed(), self.paths.histories_missed());
        lines.extend([conversions, paths, self.groups.histories_missed(), self.translations.histories_missed()].concat());
        lines
    }
}

pub fn named(rule: Rule) -> &'static str {
    match rule {
        FIRST => "edition 1",
        OWN => "an own table",
        _ => "edition 2",
    }
}

fn on(rule: Option<Rule>) -> String {
    rule.map_or(String::new(), |rule| format!(" on {}", named(rule)))
}

pub fn missed<K: Ord>(all: &[K], reached: &BTreeMap<K, u64>, name: impl Fn(&K) -> String) -> Vec<String> {
    let never = all.iter().filter(|&key| !reached.contains_key(key)).map(|key| format!("never reached: {}", name(key)));
    let unlisted = reached.keys().filter(|&key| !all.contains(key)).map(|key| format!("not in the list: {}", name(key)));
    never.chain(unlisted).collect()
}
