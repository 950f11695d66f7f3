//! No question about a file of less than 1 MiB takes long, also where the file is made for that.

use loadplan_compare::slow_files::Times;

#[test]
fn no_name_is_slow_to_look_up() {
    let times = Times::of_long_files();
    println!("timed {} questions, the longest took {:?}", times.questions, times.longest);
    assert!(times.questions >= 1000, "{} questions only", times.questions);
    assert_eq!(times.wrong, Vec::<String>::new());
    assert!(times.slow.is_empty(), "{:?}", times.slow);
}
