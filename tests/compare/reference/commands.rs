//! The 24 commands and the keys that each has: 21 as document 01 lists them, and document 02's Q-2, "source document 000, 5.12,
//! fields in that order".

#[derive(Debug)]
pub struct Command {
    pub name: &'static str,
    /// "further fields follow, `?` optional"
    listed: &'static [&'static str],
    /// "D fields (text; info, config, subpackets a map) are checked for type, not kept and never written."
    d: &'static [&'static str],
}

/// One key of a command.
#[derive(Clone, Copy, Debug)]
pub struct Key {
    pub name: &'static str,
    pub optional: bool,
    pub kept: bool,
}

impl Command {
    /// "Each has `command` and `opId`"; opId stands here before the further fields, D fields after them.
    pub fn keys(&self) -> impl Iterator<Item = Key> {
        let key = |marked: &'static str, kept| Key { name: marked.trim_end_matches('?'), optional: marked.ends_with('?'), kept };
        let op_id = std::iter::once(key("opId", true));
        let listed = self.listed.iter().map(move |marked| key(marked, true));
        op_id.chain(listed).chain(self.d.iter().map(move |marked| key(marked, false)))
    }
}

/// The command's number in the header's enum.
pub fn number(name: &str) -> u8 {
    COMMANDS.iter().position(|command| command.name == name).expect("one of the 24") as u8
}

pub fn named(name: &[u8]) -> Option<&'static Command> {
    COMMANDS.iter().find(|command| command.name.as_bytes() == name)
}

const MAKER: &[&str] = &["vendor?", "model?", "name?", "swVersion?", "info?"];

const fn with(name: &'static str, listed: &'static [&'static str], d: &'static [&'static str]) -> Command {
    Command { name, listed, d }
}

/// "nothing more: conCmp, ping, pingRsp, ..."
const fn plain(name: &'static str) -> Command {
    with(name, &[], &[])
}

/// In the order of the header's numbers.
pub static COMMANDS: [Command; 24] = [
    with("con", &["version", "bsEui", "bidi", "geoLocation?", "snBsUuid", "snBsOpId?", "snScOpId?"], MAKER),
    with("conRsp", &["version?", "scEui", "snResume", "snScUuid"], MAKER),
    with(
        "statusRsp",
        &["code", "message", "time", "dutyCycle", "geoLocation?", "uptime?", "temp?", "cpuLoad?", "memLoad?"],
        &["config?"],
    ),
    with("det", &["epEui", "rxTime", "rxDuration?", "packetCnt", "snr", "rssi", "eqSnr?", "profile?", "sign"], &["subpackets?"]),
    with("detRsp", &["sign"], &[]),
    with(
        "attPrp",
        &["epEui", "bidi", "nwkSnKey", "shAddr", "lastPacketCnt", "dualChan", "repetition", "wideCarrOff", "longBlkDist"],
        &[],
    ),
    with("detPrp", &["epEui"], &[]),
    with(
        "ulData",
        &[
            "epEui",
            "rxTime",
            "rxDuration?",
            "packetCnt",
            "snr",
            "rssi",
            "eqSnr?",
            "profile?",
            "userData",
            "format?",
            "dlOpen",
            "responseExp",
            "dlAck",
        ],
        &["mode?", "subpackets?"],
    ),
    plain("conCmp"),
    plain("ping"),
    plain("pingRsp"),
    plain("pingCmp"),
    plain("status"),
    plain("statusCmp"),
    plain("detCmp"),
    plain("attPrpRsp"),
    plain("attPrpCmp"),
    plain("detPrpRsp"),
    plain("detPrpCmp"),
    plain("ulDataRsp"),
    plain("ulDataCmp"),
    with(
        "dlDataQue",
        &[
            "epEui",
            "queId",
            "cntDepend",
            "packetCnt?",
            "userData",
            "format?",
            "prio?",
            "responseExp?",
            "responsePrio?",
            "dlWindReq?",
            "expOnly?",
        ],
        &[],
    ),
    plain("dlDataQueRsp"),
    plain("dlDataQueCmp"),
];
