//! Packets, lists, their texts, settings, lines and the published list as the papers word them,
//! item by item and with nothing done ahead: what the quicker forms of this library and the
//! product are both compared with. The areas that a call is lent are no concern here.

pub mod hub;
pub mod line;
pub mod list;
pub mod packet;
pub mod setting;
pub mod text;
