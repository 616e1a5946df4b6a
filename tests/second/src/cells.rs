//! Cells (docs/FORMATS.md): a word of four bytes and a mark for each property.
use crate::tree::{Property, Tree, LIVE, READ};
use crate::*;

pub const CELL_SIZE: usize = 5;

/// Whether these are so many cells, each mark 0 or 1.
pub fn are_sound(cells: &[u8], count: usize) -> bool {
    cells.len() == CELL_SIZE * count && cells.chunks_exact(CELL_SIZE).all(|cell| cell[4] <= 1)
}

/// The sound tree of lent bytes, where the cells fit it.
pub fn checked<'a>(tree: &'a [u8], cells: &[u8]) -> Option<Tree<'a>> {
    Tree::read(tree).filter(|tree| are_sound(cells, tree.properties.len()))
}

fn cell(cells: &[u8], place: usize) -> Option<&[u8]> {
    cells.chunks_exact(CELL_SIZE).nth(place)
}

pub fn word(cells: &[u8], place: usize) -> u32 {
    cell(cells, place).map_or(0, |cell| u32::from_be_bytes([cell[0], cell[1], cell[2], cell[3]]))
}

fn is_ready(cells: &[u8], place: usize) -> bool {
    cell(cells, place).is_some_and(|cell| cell[4] == 1)
}

/// The word of the property at a place: 12 where it has no read attribute, or is live and not ready.
pub fn readable(property: &Property, cells: &[u8], place: usize) -> Result<u32, u8> {
    let open = property.has(LIVE) && !is_ready(cells, place);
    if !property.has(READ) || open {
        return Err(NO_READING);
    }
    Ok(word(cells, place))
}

pub fn store(cells: &mut [u8], place: usize, word: u32) {
    cells[CELL_SIZE * place..][..4].copy_from_slice(&word.to_be_bytes());
}

pub fn check(tree: &[u8], cells: &[u8]) -> u8 {
    u8::from(checked(tree, cells).is_none())
}

pub fn size(tree: &[u8]) -> usize {
    Tree::read(tree).map_or(0, |tree| CELL_SIZE * tree.properties.len())
}

/// Every word 0, none ready.
pub fn begin(tree: &[u8], cells: &mut [u8]) -> u8 {
    match Tree::read(tree) {
        Some(tree) if cells.len() == CELL_SIZE * tree.properties.len() => {
            cells.fill(0);
            0
        }
        _ => UNSOUND,
    }
}

/// Cells that were saved: no live property is ready, all else stays.
pub fn restore(tree: &[u8], cells: &mut [u8]) -> u8 {
    let Some(tree) = checked(tree, cells) else {
        return UNSOUND;
    };
    for (property, cell) in tree.properties.iter().zip(cells.chunks_exact_mut(CELL_SIZE)) {
        if property.has(LIVE) {
            cell[4] = 0;
        }
    }
    0
}

/// The firmware reads the property at a place: 1, 16 or 12.
pub fn reading(tree: &[u8], cells: &[u8], place: usize) -> Result<u32, u8> {
    let tree = checked(tree, cells).ok_or(UNSOUND)?;
    let property = tree.properties.get(place).ok_or(NO_SUCH_PROPERTY)?;
    readable(property, cells, place)
}

/// The converter posts to a live cell.
pub fn post(tree: &[u8], cells: &mut [u8], place: usize, word: u32, ready: bool) -> u8 {
    let Some(tree) = checked(tree, cells) else {
        return UNSOUND;
    };
    if !tree.properties.get(place).is_some_and(|property| property.has(LIVE)) {
        return NOT_LIVE;
    }
    if ready {
        store(cells, place, word);
    }
    cells[CELL_SIZE * place + 4] = u8::from(ready);
    0
}
