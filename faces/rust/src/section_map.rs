//! A map of sections by their ranges, for the sections of many segments.
use crate::program_header::{has_bounds, ProgramHeader};
use crate::section_header::SectionHeader;
use alloc::vec::Vec;

/// The sections of a file by their ranges in the file and in memory, for those of many segments. It finds what
/// [`Elf::segment_sections`](crate::Elf::segment_sections) does without trying each section for each segment, also of a
/// hostile file with thousands of both. Like that call's rule it is not part of the library, and not proved.
///
/// ```
/// # let bytes = std::fs::read(std::env::current_exe()?)?;
/// let elf = goblin_rs::Elf::parse(&bytes)?;
/// let sections = elf.section_map()?;
/// for segment in elf.program_headers()? {
///     let held = sections.segment_sections(&segment);
///     assert!(held.into_iter().eq(elf.segment_sections(&segment)?));
/// }
/// # Ok::<(), Box<dyn std::error::Error>>(())
/// ```
#[derive(Clone, Debug)]
pub struct SectionMap {
    sections: Vec<SectionHeader>,
    // The sections of each class, as a tree of four dimensions.
    classes: Vec<Vec<Node>>,
}

// A section, by its index, in the middle of those below it, with the highest bounds of all these.
#[derive(Clone, Debug)]
struct Node {
    index: usize,
    bounds: [i128; 4],
    highest: [i128; 4],
}

impl SectionMap {
    pub(crate) fn of(sections: Vec<SectionHeader>) -> Self {
        let mut classes = Vec::new();
        classes.resize(16, Vec::new());
        for (index, section) in sections.iter().enumerate() {
            let bounds = section.bounds();
            classes[section.class()].push(Node { index, bounds, highest: bounds });
        }
        classes.retain(|class| !class.is_empty());
        for class in &mut classes {
            arrange(class, 0);
        }
        SectionMap { sections, classes }
    }

    /// Returns the sections of a segment in order, as [`Elf::segment_sections`](crate::Elf::segment_sections) does.
    #[must_use]
    pub fn segment_sections(&self, segment: &ProgramHeader) -> Vec<SectionHeader> {
        let mut found = Vec::new();
        for class in &self.classes {
            // (the type of a segment, and what bounds it has, are the same for all sections of a class)
            let any = &self.sections[class[0].index];
            if segment.may_hold(any) {
                search(class, &segment.least_bounds(any), &mut found);
            }
        }
        found.sort_unstable();
        found.into_iter().map(|index| self.sections[index]).collect()
    }
}

// Puts the middle one by a bound between those below it and those above it, and arranges these by the next bound.
fn arrange(nodes: &mut [Node], by: usize) {
    nodes.sort_unstable_by_key(|node| node.bounds[by]);
    let (below, others) = nodes.split_at_mut(nodes.len() / 2);
    if let Some((node, above)) = others.split_first_mut() {
        for side in [below, above] {
            arrange(side, (by + 1) % 4);
            let highest = side.get(side.len() / 2).map_or(node.highest, |top| top.highest);
            node.highest.iter_mut().zip(highest).for_each(|(one, other)| *one = other.max(*one));
        }
    }
}

// Finds the sections that have these bounds or higher ones.
fn search(nodes: &[Node], least: &[i128; 4], found: &mut Vec<usize>) {
    let middle = nodes.len() / 2;
    let node = match nodes.get(middle) {
        Some(node) if has_bounds(&node.highest, least) => node,
        _ => return,
    };
    if has_bounds(&node.bounds, least) {
        found.push(node.index);
    }
    search(&nodes[..middle], least, found);
    search(&nodes[middle + 1..], least, found);
}
