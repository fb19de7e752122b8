//! The values that source 003 prints, with the crawl's slips mended (letter O for digit 0,
//! a lost D in the 224-bit unsalted alphabet digest, the lost I of the alphabet).

use crate::hash::Family;

#[derive(Clone, Copy, PartialEq, Eq, Debug)]
pub enum Message {
    Empty,
    A,
    Alphabet,
    MillionA,
}

impl Message {
    pub fn bytes(self) -> Vec<u8> {
        match self {
            Message::Empty => Vec::new(),
            Message::A => b"A".to_vec(),
            Message::Alphabet => b"ABCDEFGHIJKLMNOPQRSTUVWXYZ".to_vec(),
            Message::MillionA => vec![b'A'; 1_000_000],
        }
    }

    fn label(self) -> &'static str {
        match self {
            Message::Empty => "empty",
            Message::A => "a",
            Message::Alphabet => "alphabet",
            Message::MillionA => "million-a",
        }
    }
}

pub enum What {
    Master(Family),
    Start(u16),
    Digest { m: u16, salted: bool, message: Message },
}

pub struct Printed {
    pub what: What,
    /// 32-bit words in upper-case hex, each its most significant digit first.
    pub words: &'static str,
}

impl Printed {
    pub fn label(&self) -> String {
        match &self.what {
            What::Master(Family::Small) => "MIV_256".to_string(),
            What::Master(Family::Large) => "MIV_512".to_string(),
            What::Start(m) => format!("IV_{m}"),
            What::Digest { m, salted, message } => {
                let salted = if *salted { "salted" } else { "unsalted" };
                format!("{m} {salted} {}", message.label())
            }
        }
    }

    pub fn numbers(&self) -> Vec<u32> {
        self.words.split(' ').map(|w| u32::from_str_radix(w, 16).expect("a hex word")).collect()
    }
}

/// The byte that fills the salt of the source's salted digests.
pub fn salt_byte(m: u16) -> u8 {
    match m {
        224 => 0x11,
        256 => 0x22,
        384 => 0x33,
        _ => 0x44,
    }
}

/// The whole table, one line a value.
pub fn table_text() -> String {
    TABLE.iter().map(|entry| format!("{} {}\n", entry.label(), entry.words)).collect()
}

const fn digest(m: u16, salted: bool, message: Message, words: &'static str) -> Printed {
    Printed { what: What::Digest { m, salted, message }, words }
}

/// In the source's order: sections 4.1.4 and 4.2.4, then appendix A.
#[rustfmt::skip]
pub const TABLE: [Printed; 39] = [
    Printed { what: What::Master(Family::Small), words: "\
        ACCF8F80 96589E66 43361E2F ECC26B0F D74AFFA7 FEDA3472 FAEC19EA EE4C3008" },
    Printed { what: What::Start(160), words: "\
        E9E6C691 3DA59359 8FAEBDBB 1B797F0B 55712ABD F639EE21 FDE027CE 8891EC2F" },
    Printed { what: What::Start(224), words: "\
        C4C67795 C0B1817F EAD88924 1ABB1BB0 E0C29152 BDE046BA AEEECF99 58D509D8" },
    Printed { what: What::Start(256), words: "\
        3EECF551 BF10819B E6DC8559 F3E23FD5 431AEC73 79E3F731 98325F05 A92A31F1" },
    Printed { what: What::Master(Family::Large), words: "\
        F0C11673 6F0196F5 ECCBD1EA A6C59471 44AC3847 3BC53CB3 AD11AF21 4529BC86 \
        0F2CFBA2 C73C31B7 B095486E 264A9D3F 73B16228 6FF3790A E03124CD F1320A9F" },
    Printed { what: What::Start(384), words: "\
        71F48510 A903A8AC FE3216DD 0B2D2AD4 6672900A 41032819 15A7D780 B3CAB8D9 \
        34EF4711 DE019FE8 4D674DC4 E056D96B A35C016B DD903BA7 8C1B09B4 2C3E9F25" },
    Printed { what: What::Start(512), words: "\
        D5652B63 25F1E6EA B18F48FA A1EE3A47 C8B67B07 BDCE48D3 E3937B78 05DB5186 \
        613BE326 A11FA303 90C833D4 79CEE316 1E1AF00F 2829B165 23B25F80 21E11499" },
    digest(224, false, Message::Empty, "\
        2A86D92E E32FA083 F4CFF0E5 4CCCA99C 4596A790 978E0A36 A78143A4"),
    digest(224, false, Message::A, "\
        882B05AF 4A011380 4000F5D3 A0DC3478 FDD0A39C E9CF122F 693DAA65"),
    digest(224, false, Message::Alphabet, "\
        0DDDD788 B73DCA82 A2A29B3F 5BC42C8C 7FDEA1A1 9F488808 EB430291"),
    digest(224, false, Message::MillionA, "\
        27851E6D F3835375 67D6FF92 06DA6F82 77E54A48 FB9EC067 9FC7B531"),
    digest(224, true, Message::Empty, "\
        FD92F687 245D0A4C F6767075 F79AAFA4 85BBB828 368CC6CE BF35A7CE"),
    digest(224, true, Message::A, "\
        339E7CCB C2981B9D 74BB92C0 A0107783 97CFDEF7 0B00469E DEF2CB97"),
    digest(224, true, Message::Alphabet, "\
        EDD13EC8 D7F46702 B1DB7FA9 1BC4A20E 7BDEF3ED E7C5EE7C 199B3CD8"),
    digest(224, true, Message::MillionA, "\
        429B1D9B 832771FA 9EC815A4 708FEFAD A47D115D A572320B 0DC30C2F"),
    digest(256, false, Message::Empty, "\
        F7A5E74A 15262D71 F90BE000 11B7B2D7 E7779315 94259872 03B260B3 FA7DA608"),
    digest(256, false, Message::A, "\
        E27E9117 438183FB 44ACC3AA 9E036239 2386517B 375A196C D0B810E9 2724A94D"),
    digest(256, false, Message::Alphabet, "\
        7FD46C27 CBDEF418 2C1F57C7 4FD8C6B9 AE53DC95 1C49D4BF E57685AD D4675EFC"),
    digest(256, false, Message::MillionA, "\
        913766F3 6FC9F8C9 893DE567 501C3A43 C261FCE9 E8E29FF8 DB289A64 74E64413"),
    digest(256, true, Message::Empty, "\
        7ED3E8FE 360D7085 58A1217C 50E9CB46 BF1EC62F 1FFEA7F9 CF3342C2 2FDFBE1E"),
    digest(256, true, Message::A, "\
        605F0589 4B37265A 9E82ABB5 47E09FDD 5E99BD2C 829F073D 4250EDD2 890552F4"),
    digest(256, true, Message::Alphabet, "\
        04D07FE8 414EE35C 11B559B9 8D8BB4C2 EDE5EFAC 39A55AF1 80626E6E B5E80ADF"),
    digest(256, true, Message::MillionA, "\
        75DCBF98 54105E48 E10A5F1A CFB1AA5F DED2CF0B 47F6798A 25238315 D4F9C001"),
    digest(384, false, Message::Empty, "\
        88845B9F FAC2C991 22FE1ACC C9C89EE6 2D0A9911 D9CA5343 22FAFB5E 7E93C3D2 \
        95661762 A8C001C6 90DEB676 7E3519DA"),
    digest(384, false, Message::A, "\
        42C5AF7D 083A0490 C18813D9 27611AF4 746C9953 6A235E30 82CD3C31 529A1BE3 \
        12E9976C 5D3DC612 57111B7D AD892E22"),
    digest(384, false, Message::Alphabet, "\
        81C569B2 5D641DF5 B1A257EB C5BE29C7 F60A30D8 F7120DBF 371191E4 9EAD7515 \
        735F2685 748CF263 418F6090 9A730FA1"),
    digest(384, false, Message::MillionA, "\
        1AAE3C75 7BEC5022 2C856BCC 4F3A71B9 EF147DB7 3CA8A80E CD081294 88FCE133 \
        477D2B9E 8E33DE6B 465D746B A3D7C257"),
    digest(384, true, Message::Empty, "\
        152990BB 7046D2D3 3A5DB501 550FC09F 50BD2C95 4FCA7B7C 6DDC5A77 0BAFB46B \
        881FA20A 2336C0DD B2880026 8DB8242D"),
    digest(384, true, Message::A, "\
        5B56C65C 508F6258 3955BA4F 0A05F37C 2759E4C8 4308DDCB 526585C4 679AC9C3 \
        B004CCE2 CC55392B 9D5040A3 CD4BB266"),
    digest(384, true, Message::Alphabet, "\
        8A5821B0 1359B5E8 17BD90F8 6503C5D3 EF536A89 B5F82CC7 40AB94F8 06378796 \
        45DBF0CE 98C1906C 49BFEA31 D095AC58"),
    digest(384, true, Message::MillionA, "\
        C5590E4A C158386F 652F4F9C C79AB271 4C833E54 1BD96505 EBA3AB9D E6EC9667 \
        7B030E10 30937BDB 4A91D581 0B598A18"),
    digest(512, false, Message::Empty, "\
        DCEFAEBD EBD91BF5 12496E73 C6B1C634 C79A8350 F7DA4176 BB78619E 723E3B28 \
        83BF52B0 650F0F4E 3DE1005C EADCEE8E 88E428F8 280EE5A8 204E22AB 440F9547"),
    digest(512, false, Message::A, "\
        7101935E 7A7E833B 8AD272B2 A3D63706 2D95FA5F FE568254 D47588A8 2586CC9C \
        D800E2D4 D436FA84 D213894A 79CEE4FE 8C564096 05616842 3F478714 CD40B0D4"),
    digest(512, false, Message::Alphabet, "\
        5BBA098A 1334EC66 AD82CDC3 EDF838EC 7C32AF0B 62A27329 4F8E086C E91266E2 \
        C664B910 7CED06F2 05DD28AC 9F55BEA3 4D8C323A D9F18C8A 86476216 0F701C22"),
    digest(512, false, Message::MillionA, "\
        83D48B76 194F854B 6961A072 5254D22F 5C0A90AC EDFD064E 752D8455 059C1392 \
        F3C8F3DA 5DD11D0C 388AF702 0D3083CC 4C214AC2 4745892D DDEC94DA 54FA93DF"),
    digest(512, true, Message::Empty, "\
        BF41E32F FDCD6515 3FEAE603 5FCA1C85 72508A6B C97A1A4E C510DF1A CFA77E74 \
        8293D797 FE34E135 C340DDEB 8A2D7ED8 C38E8482 39434A2E 8FD60DE0 B587E66D"),
    digest(512, true, Message::A, "\
        8C4EACD0 C6D4C409 CABA8841 BBCCD07B 88389F45 133494CE 7717BAD7 957B7085 \
        467355A2 440DBDD3 D385019C C0319733 1E073D98 82A558D4 9AE6CA62 0B168A34"),
    digest(512, true, Message::Alphabet, "\
        4E88F55B 8AA95A99 1B07880C 8D1B303A DB9902AF E0837D3E D7BF7152 071B8402 \
        0DCD4246 57F17300 8E8C63E7 7294FA75 913E2712 55C1A9BE FF268E96 A4551B54"),
    digest(512, true, Message::MillionA, "\
        C33374FF D173A1D7 69090351 F2BF8B8F 67B3105F 7618E140 782648C9 2BF3416B \
        90030843 234FB575 976F26C6 B31B3E72 51363954 A43D3AF9 59D7702C 5519105A"),
];
