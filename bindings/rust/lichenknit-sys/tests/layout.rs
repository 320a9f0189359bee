//! The structs lie as the library has them, and the version is that of the header.

use core::mem::size_of;

use lichenknit_sys::*;

#[test]
fn sizes_are_those_of_the_library() {
    let (mut sizes, mut more) = ([0; 8], [0; 9]);
    // SAFETY: the arrays are as long as the functions write.
    unsafe {
        sci_layout(&mut sizes);
        sci_layout_more(&mut more);
    }
    let here = [
        size_of::<sci_op>(),
        size_of::<sci_event>(),
        size_of::<sci_packet>(),
        size_of::<sci_stamped>(),
        size_of::<sci_entry>(),
        size_of::<sci_verdict>(),
        size_of::<sci_text_fault>(),
        size_of::<sci_machine>(),
    ];
    assert_eq!(sizes.map(|it| it as usize), here);
    assert_eq!(
        more.map(|it| it as usize),
        [
            size_of::<sci_held>(),
            size_of::<sci_home>(),
            size_of::<sci_seen>(),
            size_of::<sci_want>(),
            size_of::<sci_dead>(),
            size_of::<sci_access>(),
            size_of::<sci_last_word>(),
            size_of::<sci_trace_way>(),
            size_of::<sci_judgement>()
        ]
    );
}

#[test]
fn versions_agree() {
    // SAFETY: the function takes nothing.
    assert_eq!(unsafe { sci_version() }, SCI_VERSION_MAJOR * 65536 + SCI_VERSION_MINOR);
}
