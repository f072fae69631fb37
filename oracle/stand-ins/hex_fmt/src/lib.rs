//! Stand-in for hex_fmt: only named in lines that are not logged.

pub struct HexFmt<T>(pub T);
