//! What the compiler asks of callers, tried: a call that writes is refused where the store is lent to be read, and two that write at once are refused.
//! Beside each program that must be refused stands the same with the right loan, which must not be.

/// Tries a call that writes: on a shared loan it is refused (E0596), on an exclusive one it is not.
macro_rules! writes {
    ($name:ident, $call:literal) => {
        #[doc = concat!("```compile_fail,E0596\nuse sobumikeyo::*;\nfn call(store: &Store) { let _ = store.", $call, "; }\n```\n")]
        #[doc = concat!("```\nuse sobumikeyo::*;\nfn call(store: &mut Store) { let _ = store.", $call, "; }\n```\n")]
        pub struct $name;
    };
}

writes!(Make, "make(1)");
writes!(Open, "open(Desk(0), 2, 1, PLAIN_WEIGHT, 1)");
writes!(Feed, "feed(Desk(0), Sample::FIRST, 0)");
writes!(FeedAll, "feed_all(Desk(0), Sample::FIRST, &[0])");
writes!(Close, "close(Desk(0))");

/// Tries calls that only read: a shared loan is enough, also for threads.
///
/// ```
/// use sobumikeyo::*;
/// fn read(store: &Store) {
///     let context = Context { length: 0, code: 0 };
///     let _ = (store.numbers(), store.is_sound(), store.room_left(), store.chart(Desk(0), context, 0));
///     let _ = (store.report(Desk(0)), store.report_on(Desk(0), &mut [], 0));
/// }
/// fn read_twice(store: &Store) {
///     std::thread::scope(|threads| {
///         threads.spawn(|| read(store));
///         threads.spawn(|| read(store));
///     });
/// }
/// ```
pub struct Reads;

/// Tries two threads that write, at different desks: refused (E0499), and one after the other not.
///
/// ```compile_fail,E0499
/// use sobumikeyo::*;
/// fn feed_twice(store: &mut Store) {
///     std::thread::scope(|threads| {
///         threads.spawn(|| store.feed(Desk(0), Sample::FIRST, 0));
///         threads.spawn(|| store.feed(Desk(1), Sample::FIRST, 0));
///     });
/// }
/// ```
/// ```
/// use sobumikeyo::*;
/// fn feed_twice(store: &mut Store) {
///     std::thread::scope(|threads| {
///         threads.spawn(|| store.feed(Desk(0), Sample::FIRST, 0));
///     });
///     std::thread::scope(|threads| {
///         threads.spawn(|| store.feed(Desk(1), Sample::FIRST, 0));
///     });
/// }
/// ```
pub struct Threads;

/// Tries a thread that writes beside one that reads: refused (E0502), and one after the other not.
///
/// ```compile_fail,E0502
/// use sobumikeyo::*;
/// fn feed_and_report(store: &mut Store) {
///     std::thread::scope(|threads| {
///         threads.spawn(|| store.report(Desk(0)));
///         threads.spawn(|| store.feed(Desk(1), Sample::FIRST, 0));
///     });
/// }
/// ```
/// ```
/// use sobumikeyo::*;
/// fn feed_and_report(store: &mut Store) {
///     std::thread::scope(|threads| {
///         threads.spawn(|| store.report(Desk(0)));
///     });
///     std::thread::scope(|threads| {
///         threads.spawn(|| store.feed(Desk(1), Sample::FIRST, 0));
///     });
/// }
/// ```
pub struct ReadsBeside;
