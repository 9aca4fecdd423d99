//! The library's fifteen functions, called as a C driver calls them.
use crate::model::buffer::Buffer;
use crate::model::call::{Call, Function, Lent};

type Words = *mut u64;
type Read = *const u64;

#[rustfmt::skip]
extern "C" {
    fn reelbook_format(
        image: Words, words: usize, map: Words, map_words: usize, heads: Words, table: *const u8, table_bytes: usize, slots: u64,
        nodes: u64,
    ) -> u64;
    fn reelbook_recover(image: Words, words: usize, map: Words, map_words: usize, heads: Words) -> u64;
    fn reelbook_open(
        image: Read, words: usize, map: Words, map_words: usize, script: Words, room: usize, reel: u64, used: Words,
    ) -> u64;
    fn reelbook_claim(
        image: Read, words: usize, map: Words, map_words: usize, heads: Words, script: Words, room: usize, head: u64, reel: u64,
        frame: u64, used: Words, left: Words,
    ) -> u64;
    fn reelbook_fill(image: Read, words: usize, heads: Words, script: Words, room: usize, head: u64, used: Words) -> u64;
    fn reelbook_commit(image: Read, words: usize, heads: Words, script: Words, room: usize, head: u64, used: Words) -> u64;
    fn reelbook_abandon(image: Read, words: usize, heads: Words, script: Words, room: usize, head: u64, used: Words) -> u64;
    fn reelbook_remove(
        image: Read, words: usize, heads: Read, script: Words, room: usize, reel: u64, frame: u64, used: Words,
    ) -> u64;
    fn reelbook_has(image: Read, words: usize, reel: u64, frame: u64, yes: Words, nodes: Words) -> u64;
    fn reelbook_list(
        image: Read, words: usize, scratch: Words, scratch_words: usize, list: Words, room: usize, reel: u64, count: Words,
    ) -> u64;
    fn reelbook_retire(
        image: Read, words: usize, map: Words, map_words: usize, heads: Read, scratch: Words, scratch_words: usize, script: Words,
        room: usize, reel: u64, used: Words,
    ) -> u64;
    fn reelbook_tidy(
        image: Read, words: usize, map: Words, map_words: usize, heads: Read, scratch: Words, scratch_words: usize, script: Words,
        room: usize, reel: u64, used: Words,
    ) -> u64;
    fn reelbook_convert(
        image: Read, words: usize, copy: Words, copy_words: usize, scratch: Words, scratch_words: usize,
    ) -> u64;
    fn reelbook_apply(image: Words, words: usize, script: Read, room: usize) -> u64;
    fn reelbook_translate(
        script: Read, script_words: usize, module: Words, module_words: usize, image_words: u64, used: Words,
    ) -> u64;
}

fn slice(buffer: &mut Buffer) -> (Words, usize) {
    (buffer.as_mut_ptr(), buffer.len())
}

/// The answer. What is handed back besides, where there is such, is written to `count`, `left` and `path_nodes`.
pub fn perform(call: &Call, lent: &mut Lent, count: &mut u64, left: &mut u64, path_nodes: &mut u64) -> u64 {
    let (image, words) = slice(&mut lent.image);
    let (copy, copy_words) = slice(&mut lent.copy);
    let (map, map_words) = slice(&mut lent.map);
    let (script, room) = slice(&mut lent.script);
    let (scratch, scratch_words) = slice(&mut lent.scratch);
    let (list, list_room) = slice(&mut lent.list);
    let (module, module_words) = slice(&mut lent.module);
    let heads = lent.heads.as_mut_ptr();
    let (table, table_bytes) = lent.table.as_ref().map_or((std::ptr::null(), 0), |table| (table.as_ptr(), table.len()));
    let &Call { function, slots, nodes, head, reel, frame, words: image_words } = call;
    // Sound: the slices are apart from each other and of the lengths given, and heads has all of its words. No memory has length
    // 0.
    unsafe {
        match function {
            Function::Format => reelbook_format(image, words, map, map_words, heads, table, table_bytes, slots, nodes),
            Function::Recover => reelbook_recover(image, words, map, map_words, heads),
            Function::Open => reelbook_open(image, words, map, map_words, script, room, reel, count),
            Function::Claim => reelbook_claim(image, words, map, map_words, heads, script, room, head, reel, frame, count, left),
            Function::Fill => reelbook_fill(image, words, heads, script, room, head, count),
            Function::Commit => reelbook_commit(image, words, heads, script, room, head, count),
            Function::Abandon => reelbook_abandon(image, words, heads, script, room, head, count),
            Function::Remove => reelbook_remove(image, words, heads, script, room, reel, frame, count),
            Function::Has => reelbook_has(image, words, reel, frame, count, path_nodes),
            Function::List => reelbook_list(image, words, scratch, scratch_words, list, list_room, reel, count),
            Function::Retire => {
                reelbook_retire(image, words, map, map_words, heads, scratch, scratch_words, script, room, reel, count)
            }
            Function::Tidy => {
                reelbook_tidy(image, words, map, map_words, heads, scratch, scratch_words, script, room, reel, count)
            }
            Function::Convert => reelbook_convert(image, words, copy, copy_words, scratch, scratch_words),
            Function::Apply => reelbook_apply(image, words, script, room),
            Function::Translate => reelbook_translate(script, room, module, module_words, image_words, count),
        }
    }
}
