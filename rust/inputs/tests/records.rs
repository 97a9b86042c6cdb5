//! A record taken apart gives its sizes and its arrays.

use inputs::{record, Parts};

#[test]
fn a_record_has_its_parts() {
    let bytes =
        [0x03, 0x04, 0x05, 0x0e, 2, 0, 1, 0, 0x01, 0x00, 0x02, 0x03, 0x04, 0x05, 0x06, 0x07];
    let parts = Parts {
        sizes: [0x0403, 0x0e05, 2, 1],
        pages: vec![0x0001, 0x0302],
        frames: vec![0x0504, 0x0706],
    };
    assert_eq!(Parts::of(&bytes), parts);
    assert_eq!(record(0x0403, 0x0e05, 1, &[(0x0001, 0x0504), (0x0302, 0x0706)]), bytes);
}
