//! How two machines differ after a call, in words.

use super::Buffers;
use crate::machine::Machine;
use plus::{Editor, List, State};

/// How the states, the records or the placed lists of two machines differ, if they do.
pub(super) fn machines(core: &impl Machine, other: &impl Machine) -> Option<String> {
    let (state, expected) = (core.state(), other.state());
    if state != expected {
        return Some(parts(&state, &expected));
    }
    for editor in Editor::BOTH {
        let (record, expected) = (core.record(editor), other.record(editor));
        if record != expected {
            return Some(first_entry(editor, &record, &expected));
        }
    }
    let (bounds, expected) = (core.bounds(), other.bounds());
    if bounds != expected {
        return Some(format!(
            "core has the area {bounds:04X?}, not {expected:04X?}"
        ));
    }
    first_list(&core.lists(), &other.lists())
}

/// The parts of the state that differ, both ways.
fn parts(core: &State, expected: &State) -> String {
    let mut parts = String::from("the states differ:");
    macro_rules! part {
        ($($name:ident).+) => {
            let (is, not) = (&core.$($name).+, &expected.$($name).+);
            if is != not {
                let name = stringify!($($name).+);
                parts += &format!("\n  {name}: core has {is:02X?}\n  {name}: not      {not:02X?}");
            }
        };
    }
    part!(lock);
    part!(gate);
    part!(crtc.selected);
    part!(crtc.registers);
    part!(crtc.counters);
    part!(video);
    part!(sprites);
    part!(palette);
    part!(sound.channels);
    part!(sound.psg);
    part!(interrupts);
    part!(editing.table);
    parts
}

/// The first entry of an editor's records that differs, counted from the newest.
fn first_entry(editor: Editor, core: &[(u16, u8)], expected: &[(u16, u8)]) -> String {
    let most = core.len().max(expected.len());
    let at = (0..most).find(|&at| core.get(at) != expected.get(at));
    let at = at.unwrap_or(most);
    let (entry, not) = (core.get(at), expected.get(at));
    format!("core has {entry:02X?} at {at} of the record of {editor:?}, not {not:02X?}")
}

/// The first list that differs, by rising handles.
fn first_list(core: &[List], expected: &[List]) -> Option<String> {
    let most = core.len().max(expected.len());
    let at = (0..most).find(|&at| core.get(at) != expected.get(at))?;
    let (list, not) = (core.get(at), expected.get(at));
    Some(format!("core has placed {list:04X?}, not {not:04X?}"))
}

/// The first byte of a buffer that differs.
pub(super) fn first_byte(core: &Buffers, expected: &Buffers) -> String {
    let pairs = [
        ("RAM", &core.ram, &expected.ram),
        ("store", &core.store, &expected.store),
        ("line", &core.line, &expected.line),
        ("export", &core.export, &expected.export),
    ];
    for (name, core, expected) in pairs {
        if let Some(at) = (0..core.len()).find(|&at| core[at] != expected[at]) {
            let (byte, not) = (core[at], expected[at]);
            return format!("core leaves {byte:02X} at {at:04X} of the {name}, not {not:02X}");
        }
    }
    String::from("the buffers are the same")
}
