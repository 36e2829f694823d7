//! Inputs that are refused with 7: the test that chooses the asymptotic expansion and the expansion's own test of its
//! region round differently, or forward / strike overflows or rounds to 0 and sigma is negative. `differential --search`
//! finds such inputs.

/// For `black`: forward, strike, sigma, expiry, and 1 for a Call, 2 for a Put; out of the money and in it.
#[rustfmt::skip]
pub const MARKETS: [[u64; 5]; 15] = [
    [0x3F8C_3B6B_6A8E_A2AE, 0x4050_3C70_C53D_DB57, 0x3FEA_8698_7B35_B0A6, 0x3FF0_0000_0000_0000, 1],
    [0x3FB6_93A9_E81E_6CBF, 0x41A1_D891_53A1_A5FB, 0x401F_8009_85C7_9D0F, 0x3FB0_0F2E_C4A5_3828, 1],
    [0x5637_8A34_6218_3617, 0x733F_AE55_719B_567A, 0x4035_E4B2_4CE2_9471, 0x3FE4_3B23_B496_9880, 1],
    [0x405F_2EF4_7D8B_9711, 0x3FD0_CD0B_EF8C_594E, 0x3FF7_376B_048C_BAD7, 0x3FC6_AAE4_B3F2_0CBC, 1],
    [0x3FD6_808A_E5CA_B924, 0x3F66_7FA9_B29E_89B9, 0x3FDE_F59B_821E_D2CD, 0x3FF0_0000_0000_0000, 1],
    [0x40A1_D030_950B_5310, 0x3FBD_2EF5_62AF_EA85, 0x4017_7D99_F7D4_626A, 0x3F9B_9B24_E8B1_D880, 1],
    [0x4059_EF80_BE0B_2970, 0x3FB9_CC44_6E03_5D49, 0x3FFB_DDD1_CE51_8C21, 0x3FC3_C87E_16E1_6BFF, 2],
    [0x4010_5743_911A_58DD, 0x3E1F_82C4_FADD_CE07, 0x3FFF_ED7A_0444_D292, 0x3FF0_0000_0000_0000, 2],
    [0x4098_9A06_E3E8_0707, 0x40FB_BF39_5066_AE67, 0x401E_8796_2B5A_5E8B, 0x3F69_BCCE_E41E_7775, 2],
    [0x402E_C255_774B_EAD8, 0x40E6_3112_A716_00A4, 0x3FF2_9412_FC3D_6B69, 0x3FDD_3E9B_CF5A_5A94, 2],
    [0x3FAD_A24F_B9C1_0303, 0x4065_C5BB_DF8C_30D8, 0x3FC0_D9A6_403C_D941, 0x4041_DA80_B30A_679E, 2],
    [0x406F_06C7_3E70_C03A, 0x4152_8241_3B32_7F44, 0x3FEE_C99B_934D_A724, 0x3FF0_0000_0000_0000, 2],
    [0x7E37_E43C_8800_759C, 0x01A5_6E1F_C2F8_F359, 0xBFC9_9999_9999_999A, 0x3FF0_0000_0000_0000, 1],
    [0x7E37_E43C_8800_759C, 0x01A5_6E1F_C2F8_F359, 0x8000_0000_0000_0000, 0x3FF0_0000_0000_0000, 2],
    [0x0010_0000_0000_0000, 0x7FEF_FFFF_FFFF_FFFF, 0xDFF6_A09E_667F_3BCC, 0x3FF0_0000_0000_0000, 1],
];

/// Beside these there is a price: at a sigma of +0, and from the sigma on at which the region's test overflows.
#[rustfmt::skip]
pub const PRICES: [[u64; 5]; 2] = [
    [0x7E37_E43C_8800_759C, 0x01A5_6E1F_C2F8_F359, 0x0000_0000_0000_0000, 0x3FF0_0000_0000_0000, 1],
    [0x0010_0000_0000_0000, 0x7FEF_FFFF_FFFF_FFFF, 0xDFF6_A09E_667F_3BCD, 0x3FF0_0000_0000_0000, 1],
];

/// For `normalised_black_call`: x and s.
pub const MONEY: [[u64; 2]; 4] = [
    [0xC025_F946_116F_A1BB, 0x3FF1_0848_22E2_71D4],
    [0xC03C_7FBB_6681_5DDB, 0x4004_95EC_39DA_8A22],
    [0xC012_C3A9_C332_62A7, 0x3FDD_F474_8E39_3B4D],
    [0x4042_56FC_E716_EA3F, 0x4009_BEC2_56BD_9F39],
];

/// For solve: price, forward, strike, expiry, and the kind. The refusal comes in the first step, and after so many.
#[rustfmt::skip]
pub const SOLVES: [[u64; 5]; 12] = [
    [0x3AEC_D3BE_EE4E_87EC, 0x3FB4_D442_8508_F181, 0x4102_21A8_0900_385D, 0x3F99_1E34_5A2A_9D43, 1],
    [0x3AD5_C93B_ECD2_E77E, 0x3FA9_CDEF_4F0A_73F5, 0x4083_5A6A_5A6B_0B50, 0x3FFE_150F_4A0E_63E5, 1],
    [0x3B28_E702_933E_561C, 0x408E_0607_ECE1_CB4D, 0x4008_8F18_95E6_81E3, 0x5BB2_0A54_F226_FB86, 2],
    [0x3AD9_9A3B_B6A7_0280, 0x4067_302E_0E4A_7998, 0x3FB2_5CA7_571C_B414, 0x4039_5257_7DF5_7BD8, 2],
    [0x3AB1_A0DB_9506_B0C2, 0x3F8F_1F2E_E368_D2F1, 0x4021_FF6C_E756_B810, 0x3F72_4DE9_04E5_1E22, 1],
    [0x4550_E417_AF0E_EA91, 0x4E1F_18AE_9C13_9E20, 0x4A09_6A15_88E9_6C2D, 0x404A_BD6F_0369_6393, 2],
    [0x3D35_CFCC_A2C3_3114, 0x41DB_EC11_84BB_DFD4, 0x62DF_5AB2_7B0C_876F, 0x3F6F_4022_3F58_94A0, 1],
    [0x19BD_5B67_E029_D826, 0x3FCF_9CB8_915F_5805, 0x1E62_BCB9_2EF1_77CC, 0x3F83_E061_885D_AB00, 2],
    [0x0849_0ABE_ADB7_66CE, 0x0CF2_A27D_5321_ABCB, 0x1FD3_8CB4_422A_DD6F, 0x4005_33C4_D7EE_0360, 1],
    [0x2274_6CB6_F4C3_00C5, 0x3F03_AE5D_285B_163B, 0x271C_5D46_7064_1EE7, 0x3FDB_01C9_0019_343E, 2],
    [0x52B5_91C2_5DDB_5066, 0x6B1E_F42A_C59D_4712, 0x575F_A8AA_75EB_4499, 0x3FF0_0000_0000_0000, 2],
    [0x032A_EF05_95FA_B650, 0x1EE5_638B_2083_E35C, 0x07D2_E2F1_19C4_C295, 0x3F6E_3251_7BFA_D094, 2],
];
#[cfg(test)]
const STEPS: [u32; 12] = [0, 0, 0, 0, 1, 2, 3, 3, 4, 4, 5, 5];

#[cfg(test)]
mod tests {
    use super::*;
    use gintubalos::probe::bits;

    #[test]
    fn each_is_refused_with_7() {
        for [forward, strike, sigma, expiry, kind] in MARKETS {
            assert_eq!(bits::black(forward, strike, sigma, expiry, kind as u8), (0x7FF8 << 48, 7));
        }
        for [forward, strike, sigma, expiry, kind] in PRICES {
            assert_eq!(bits::black(forward, strike, sigma, expiry, kind as u8).1, 0);
        }
        for [x, s] in MONEY {
            assert_eq!(bits::normalised_black_call(x, s).1, 7);
        }
        for ([price, forward, strike, expiry, kind], steps) in SOLVES.into_iter().zip(STEPS) {
            let found = bits::solve_with_trail(price, forward, strike, expiry, kind as u8, 20, 0, &mut [0; 960]);
            assert_eq!(found, (0x7FF8 << 48, 7 + (u64::from(steps) << 32)));
        }
    }
}
