//! The published list as a tree.

use crate::catalogue::{Catalogue, ValueKind};
use crate::generate::list::Element::{self, Blob, Float, Int, List};
use crate::hub::double_of_single;
use crate::table::{Slot, Table};

/// The list of a table that is lawful under the catalogue.
pub fn published(catalogue: &Catalogue, table: &Table) -> Vec<Element> {
    let mut slots: Vec<&Slot> = table.slots.iter().filter(|slot| slot.taken).collect();
    slots.sort_by_key(|slot| slot.socket);
    slots.iter().map(|slot| List(row(catalogue, slot))).collect()
}

fn row(catalogue: &Catalogue, slot: &Slot) -> Vec<Element> {
    let device = catalogue.device(slot.device_type).expect("a type of the catalogue");
    let mut row =
        vec![Int(slot.socket.into()), Int(slot.device_type.into()), Blob(slot.uid.to_vec())];
    for (index, &bits) in slot.bits.iter().enumerate() {
        if slot.present[index] {
            let value = match device.parameter(index).expect("a parameter of the type").kind {
                ValueKind::Int | ValueKind::Bool => Int(bits),
                ValueKind::Float => Float(double_of_single(bits)),
            };
            row.push(List(vec![Int(index as u32), value]));
        }
    }
    row
}
