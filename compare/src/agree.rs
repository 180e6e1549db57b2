//! Whether nodes of eight words are those of the original's tree, as far as the original says them.

use crate::nodes::{Node, Tree};

/// Where nodes and the original's tree part: the index among the compared nodes, and both.
#[derive(Debug, Clone, PartialEq, Eq)]
pub enum Parting {
    Count {
        here: usize,
        original: usize,
    },
    Words {
        index: usize,
        here: [u32; 8],
        original: Node,
    },
}

/// Holds nodes against the original's tree. Sections and licences are not in it and are left out here, and a word that it does
/// not say matches anything.
pub fn agree(nodes: &[[u32; 8]], tree: &Tree) -> Result<(), Parting> {
    let here: Vec<&[u32; 8]> = nodes
        .iter()
        .filter(|words| !matches!(words[0], 23 | 24))
        .collect();
    let original: Vec<&Node> = tree
        .declarations
        .iter()
        .flatten()
        .chain(std::iter::once(&tree.program))
        .collect();
    if here.len() != original.len() {
        return Err(Parting::Count {
            here: here.len(),
            original: original.len(),
        });
    }
    for (index, (here, original)) in here.into_iter().zip(original).enumerate() {
        let said = original.words();
        let same = here
            .iter()
            .zip(said)
            .all(|(word, said)| said.is_none_or(|said| said == *word));
        if !same {
            return Err(Parting::Words {
                index,
                here: *here,
                original: *original,
            });
        }
    }
    Ok(())
}
