//! Which save grew from which, drawn.

use crate::standing::short;
use std::collections::BTreeMap;

/// A save's line.
#[derive(Debug, Clone)]
pub struct Line {
    pub id: String,
    pub kept: Option<String>,
    pub grew_from: Option<String>,
    pub text: String,
}

/// Each line below the one that it grew from; those of one parent by time, then by id. A note may say anything: a line whose parent is not there, or which grew from
/// itself by some way round, stands at the left with a word on it.
pub fn draw(mut lines: Vec<Line>) -> String {
    lines.sort_by(|a, b| order(a).cmp(&order(b)));
    let places: BTreeMap<&str, usize> = lines.iter().enumerate().map(|(at, line)| (line.id.as_str(), at)).collect();
    let parents: Vec<Option<usize>> = lines.iter().map(|line| places.get(line.grew_from.as_deref()?).copied()).collect();
    let mut children: BTreeMap<usize, Vec<usize>> = BTreeMap::new();
    for (at, parent) in parents.iter().enumerate() {
        parent.iter().for_each(|parent| children.entry(*parent).or_default().push(at));
    }
    let mut drawing = Drawing { lines: &lines, children, drawn: vec![false; lines.len()], text: String::new() };
    let roots = (0..lines.len()).filter(|at| parents.get(*at) == Some(&None));
    roots.for_each(|at| drawing.from(at, "which is not here"));
    // what has not been reached is a circle, or below one
    for at in 0..lines.len() {
        if drawing.is_new(at) {
            drawing.from(first_of_circle(&parents, at), "which grew from it");
        }
    }
    drawing.text
}

/// The earliest line of the circle to which the parents of a line lead.
fn first_of_circle(parents: &[Option<usize>], below: usize) -> usize {
    let parent = |at: usize| parents.get(at).copied().flatten().unwrap_or(at);
    let on_it = parents.iter().fold(below, |at, _| parent(at));
    parents
        .iter()
        .scan(on_it, |at, _| {
            *at = parent(*at);
            Some(*at)
        })
        .min()
        .unwrap_or(on_it)
}

/// A line without a time comes last.
fn order(line: &Line) -> (bool, Option<&str>, &str) {
    (line.kept.is_none(), line.kept.as_deref(), &line.id)
}

struct Drawing<'a> {
    lines: &'a [Line],
    children: BTreeMap<usize, Vec<usize>>,
    drawn: Vec<bool>,
    text: String,
}

impl Drawing<'_> {
    /// A line at the left and all below it, if it is not drawn yet; `parent` says what is the matter with what it grew from. With a list of what is still to draw and
    /// no call of itself, so that a chain may have any length.
    fn from(&mut self, root: usize, parent: &str) {
        let Some(line) = self.lines.get(root).filter(|_| self.is_new(root)) else { return };
        let mark = line.grew_from.as_ref().map_or(String::new(), |id| format!("  (grew from {}, {parent})", short(id)));
        let mut waiting = vec![(root, String::new(), String::new(), mark)];
        while let Some((at, first, below, mark)) = waiting.pop() {
            self.put(at, &first, &mark);
            let kept = self.children.get(&at).map_or(&[][..], Vec::as_slice);
            let new: Vec<usize> = kept.iter().copied().filter(|child| self.is_new(*child)).collect();
            for (nth, child) in new.iter().enumerate().rev() {
                let (branch, beside) = if nth + 1 == new.len() { ("└─ ", "   ") } else { ("├─ ", "│  ") };
                waiting.push((*child, format!("{below}{branch}"), format!("{below}{beside}"), String::new()));
            }
        }
    }

    fn is_new(&self, at: usize) -> bool {
        self.drawn.get(at) == Some(&false)
    }

    fn put(&mut self, at: usize, before: &str, mark: &str) {
        if let (Some(line), Some(drawn)) = (self.lines.get(at), self.drawn.get_mut(at)) {
            *drawn = true;
            self.text += &format!("{before}{}{mark}\n", line.text);
        }
    }
}

#[cfg(test)]
mod tests {
    use super::*;

    /// Lines of one letter: id, day, parent.
    fn drawn(given: &[(&str, u8, &str)]) -> String {
        let line = |(id, day, parent): &(&str, u8, &str)| Line {
            id: id.to_string(),
            kept: (*day > 0).then(|| format!("{day:02}")),
            grew_from: (!parent.is_empty()).then(|| parent.to_string()),
            text: id.to_string(),
        };
        draw(given.iter().map(line).collect())
    }

    #[test]
    fn children_stand_below_their_parents_by_time() {
        let given = [
            ("e", 9, "b"),
            ("d", 4, "a"),
            ("c", 5, "a"),
            ("a", 2, ""),
            ("b", 3, "a"),
            ("f", 1, ""),
            ("g", 9, "b"),
            ("h", 6, "d"),
        ];
        assert_eq!(drawn(&given), "f\na\n├─ b\n│  ├─ e\n│  └─ g\n├─ d\n│  └─ h\n└─ c\n");
        assert_eq!(drawn(&[("b", 1, ""), ("a", 1, ""), ("c", 0, ""), ("d", 2, "")]), "a\nb\nd\nc\n");
        assert_eq!(drawn(&[]), "");
    }

    #[test]
    fn a_parent_that_is_not_there_hides_nothing() {
        assert_eq!(
            drawn(&[("a", 1, "0123456789abcdef"), ("b", 2, "a")]),
            "a  (grew from 0123456789ab, which is not here)\n└─ b\n"
        );
    }

    #[test]
    fn circles_are_broken() {
        assert_eq!(drawn(&[("a", 1, "a")]), "a  (grew from a, which grew from it)\n");
        let round = drawn(&[("a", 3, "c"), ("b", 1, "a"), ("c", 2, "b"), ("d", 1, "c"), ("e", 9, "")]);
        assert_eq!(round, "e\nb  (grew from a, which grew from it)\n└─ c\n   ├─ d\n   └─ a\n");
    }

    #[test]
    fn a_line_below_a_circle_is_drawn_once() {
        let round = drawn(&[("a", 1, "b"), ("b", 2, "c"), ("c", 3, "b")]);
        assert_eq!(round, "b  (grew from c, which grew from it)\n├─ a\n└─ c\n");
    }

    #[test]
    fn a_long_chain_is_drawn() {
        let ids: Vec<String> = (0..3000).map(|n| format!("{n:04}")).collect();
        let parent = |n: usize| n.checked_sub(1).map(|n| ids[n].clone());
        let line = |n: usize| Line { id: ids[n].clone(), kept: None, grew_from: parent(n), text: ids[n].clone() };
        assert_eq!(draw((0..3000).map(line).collect()).lines().count(), 3000);
    }
}
