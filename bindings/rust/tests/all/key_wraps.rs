//! Key wraps into buffers that are too small. Known calls have their answers, and the other errors.

use cukvashe_des::key_wrap::*;

const PROTECTION: [u8; 24] = [7; 24];
const KEY: [u8; 16] = [9; 16];

/// A byte less than is needed is refused, and nothing is written.
#[test]
fn buffers_are_measured() {
    let (mut wrapped, mut key) = ([0x5a; 32], [0x5a; 16]);
    assert_eq!(cms_wrap(&PROTECTION, &[3; 8], &KEY, &mut wrapped[..31]), Err(WrapError::BufferTooSmall));
    assert_eq!(tkw_wrap(&PROTECTION, &KEY, &mut wrapped[..19]), Err(WrapError::BufferTooSmall));
    assert_eq!(wrapped, [0x5a; 32]);
    for wraps_by_tkw in [false, true] {
        let made = if wraps_by_tkw {
            tkw_wrap(&PROTECTION, &KEY, &mut wrapped)
        } else {
            cms_wrap(&PROTECTION, &[3; 8], &KEY, &mut wrapped)
        };
        let given = &wrapped[..made.unwrap()];
        let unwrap = if wraps_by_tkw { tkw_unwrap } else { cms_unwrap };
        key.fill(0x5a);
        assert_eq!(unwrap(&PROTECTION, given, &mut key[..15]), Err(UnwrapError::BufferTooSmall));
        assert_eq!(key, [0x5a; 16]);
        assert_eq!((unwrap(&PROTECTION, given, &mut key), key), (Ok(16), KEY));
    }
}
