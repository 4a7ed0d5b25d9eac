//! The one record that a standard prints byte by byte: the example of MS-EVEN
//! 4.2 (Rule 11.21).

fn utf16(text: &str) -> Vec<u8> {
    text.encode_utf16().flat_map(u16::to_le_bytes).collect()
}

/// The SID is printed in part: eight bytes, of which four are said to be padding.
fn record(sid: [u8; 12]) -> Vec<u8> {
    let fields: [u32; 6] = [0xA8, 0x654C_664C, 0x100, 0x4CB3_BB01, 0x4CB3_BB19, 0x17];
    let numbers: [u16; 4] = [4, 2, 1, 0];
    let places: [u32; 6] = [0, 0x76, 0xC, 0x6A, 0x10, 0x90];
    let data = [
        0x76, 0x0B, 0x54, 0x86, 0x42, 0x3E, 0xBE, 0x9E, 0xFF, 0x64, 0xB0, 0x96, 0x01, 0x53, 0x2B,
        0x77,
    ];
    let bytes = [
        fields.iter().flat_map(|n| n.to_le_bytes()).collect(),
        numbers.iter().flat_map(|n| n.to_le_bytes()).collect(),
        places.iter().flat_map(|n| n.to_le_bytes()).collect(),
        utf16("GenerateEvent\0COMPUTER\0"),
        vec![0; 4],
        sid.to_vec(),
        utf16("First\0Second\0"),
        data.to_vec(),
        vec![0; 4],
        0xA8u32.to_le_bytes().to_vec(),
    ];
    let bytes = bytes.concat();
    assert_eq!(bytes.len(), 0xA8);
    bytes
}

/// Rule 11.21: the SID stands where its offset says, after a gap of four bytes.
/// As it is printed, its first byte is not 1; with a well-formed one the parts
/// end four bytes before Length2, where at most three may lie.
#[test]
fn refused_with_10_or_13() {
    let printed = [0, 0, 0, 0, 0, 0, 1, 0, 0, 0x46, 0, 0];
    let well_formed = [1, 1, 0, 0, 0, 0, 0, 5, 18, 0, 0, 0];
    for (sid, refused) in [(printed, (10, 44)), (well_formed, (13, 0))] {
        let record = record(sid);
        let end = record.len();
        let proved = [
            eventlog::step(eventlog::Edition::Unicode, &record, 0),
            eventlog::step_back(eventlog::Edition::Unicode, &record, end),
        ];
        for step in proved {
            assert_eq!(
                step.map_err(|r| (r.refusal.number(), r.field)),
                Err(refused)
            );
        }
        let unicode = plain::Edition::Unicode;
        let plain = [
            plain::judge(unicode, &record, 0),
            plain::judge_back(unicode, &record, end),
        ];
        for judged in plain {
            assert_eq!(judged.map_err(|why| (why.number, why.field)), Err(refused));
        }
    }
}
