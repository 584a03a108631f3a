//! Where the header's structs keep their members: names and sizes in the header's order, with no gaps between them.

use std::ops::Range;

/// Parts that follow one another.
pub type Layout = &'static [Part];
type Part = &'static [(&'static str, usize)];

/// The header's CHZ_MESSAGE and CHZ_DATA.
pub const MESSAGE: usize = 104;
pub const DATA: usize = 880;

/// All members with their bytes, also those that are reserved.
pub fn members(layout: Layout) -> impl Iterator<Item = (&'static str, Range<usize>)> {
    layout.iter().flat_map(|part| part.iter()).scan(0, |end, (name, size)| {
        *end += size;
        Some((*name, *end - size..*end))
    })
}

/// The members that mean something: "Nothing else is looked at."
pub fn fields(layout: Layout) -> impl Iterator<Item = (&'static str, Range<usize>)> {
    members(layout).filter(|(name, _)| *name != "reserved")
}

/// The bytes of a member, if the struct has it.
pub fn member(layout: Layout, name: &str) -> Option<Range<usize>> {
    fields(layout).find(|(other, _)| *other == name).map(|(_, range)| range)
}

/// "A message: op_id, command, and the fields of the union's member with the command's name; other commands have no fields."
pub fn message(command: &str) -> Layout {
    match command {
        "con" => &[HEAD, CON],
        "conRsp" => &[HEAD, CON_RSP],
        "statusRsp" => &[HEAD, STATUS_RSP],
        "det" => &[HEAD, PACKET, SIGN],
        "detRsp" => &[HEAD, SIGN],
        "attPrp" => &[HEAD, ATT_PRP],
        "detPrp" => &[HEAD, DET_PRP],
        "ulData" => &[HEAD, PACKET, UL_DATA],
        "dlDataQue" => &[HEAD, DL_DATA_QUE],
        _ => &[HEAD],
    }
}

const HEAD: Part = &[("op_id", 8), ("command", 1), ("reserved", 7)];

#[rustfmt::skip]
const PACKET: Part = &[
    ("ep_eui", 8), ("rx_time", 8), ("rx_duration", 8), ("snr", 8), ("rssi", 8), ("eq_snr", 8), ("profile", 16),
    ("packet_cnt", 4), ("profile_len", 1), ("has_rx_duration", 1), ("has_eq_snr", 1), ("reserved", 1),
];

#[rustfmt::skip]
const CON: Part = &[
    ("bs_eui", 8), ("sn_bs_op_id", 8), ("sn_sc_op_id", 8), ("latitude", 8), ("longitude", 8), ("altitude", 8),
    ("sn_bs_uuid", 16), ("version_major", 2), ("version_minor", 2), ("version_patch", 2),
    ("has_version", 1), ("bidi", 1), ("has_geo_location", 1), ("has_sn_bs_op_id", 1), ("has_sn_sc_op_id", 1),
];

#[rustfmt::skip]
const CON_RSP: Part = &[
    ("sc_eui", 8), ("sn_sc_uuid", 16), ("version_major", 2), ("version_minor", 2), ("version_patch", 2),
    ("has_version", 1), ("sn_resume", 1),
];

#[rustfmt::skip]
const STATUS_RSP: Part = &[
    ("time", 8), ("uptime", 8), ("duty_cycle", 8), ("latitude", 8), ("longitude", 8), ("altitude", 8),
    ("temp", 8), ("cpu_load", 8), ("mem_load", 8), ("code", 4), ("message_len", 1),
    ("has_geo_location", 1), ("has_uptime", 1), ("has_temp", 1), ("has_cpu_load", 1), ("has_mem_load", 1),
];

const SIGN: Part = &[("sign", 4)];

#[rustfmt::skip]
const ATT_PRP: Part = &[
    ("ep_eui", 8), ("nwk_sn_key", 16), ("last_packet_cnt", 4), ("sh_addr", 2),
    ("bidi", 1), ("dual_chan", 1), ("repetition", 1), ("wide_carr_off", 1), ("long_blk_dist", 1),
];

const DET_PRP: Part = &[("ep_eui", 8)];

const UL_DATA: Part = &[("user_len", 1), ("format", 1), ("dl_open", 1), ("response_exp", 1), ("dl_ack", 1)];

#[rustfmt::skip]
const DL_DATA_QUE: Part = &[
    ("ep_eui", 8), ("que_id", 8), ("prio", 8), ("entries", 1), ("format", 1), ("cnt_depend", 1),
    ("has_response_exp", 1), ("response_exp", 1), ("has_response_prio", 1), ("response_prio", 1),
    ("has_dl_wind_req", 1), ("dl_wind_req", 1), ("has_exp_only", 1), ("exp_only", 1),
];

/// What stands beside a dlDataQue: sixteen counters of four bytes, sixteen lengths, and the entries' bytes.
pub const COUNTER: usize = 4;
pub const LENGTHS: usize = 64;
pub const ENTRIES: usize = 80;

#[rustfmt::skip]
pub const SESSION: Layout = &[&[
    ("bs_eui", 8), ("highest", 8), ("lowest", 8), ("station_id", 128), ("centre_id", 128), ("station_kind", 16),
    ("centre_kind", 16), ("sn_bs_uuid", 16), ("sn_sc_uuid", 16), ("state", 1), ("stored", 1), ("reserved", 22),
]];

pub fn size(layout: Layout) -> usize {
    members(layout).map(|(_, range)| range.len()).sum()
}
