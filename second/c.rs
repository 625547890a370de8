//! The second program behind the C interface of include/gmwb.h, under the names `second_*`,
//! so that a C program can compare it with the engine in one process. See host/build.

mod gmwb;

use std::slice;

/// A lent slice. Rust asks more of a pointer than C does, so a slice of length 0 is made
/// without its pointer.
unsafe fn lent<'a, T>(pointer: *const T, length: usize) -> &'a [T] {
    if length == 0 {
        &[]
    } else {
        slice::from_raw_parts(pointer, length)
    }
}

/// The same for a slice that the call may change.
unsafe fn lent_mut<'a, T>(pointer: *mut T, length: usize) -> &'a mut [T] {
    if length == 0 {
        &mut []
    } else {
        slice::from_raw_parts_mut(pointer, length)
    }
}

/// Writes place, value and margin; gives the number.
unsafe fn tell(told: gmwb::Valued, place: *mut u64, value: *mut u64, margin: *mut i64) -> u32 {
    *place = told.place;
    *value = told.value;
    *margin = told.margin;
    told.number as u32
}

#[no_mangle]
unsafe extern "C" fn second_check(record: *const u8, record_len: usize) -> u32 {
    gmwb::check(lent(record, record_len)).number as u32
}

#[no_mangle]
unsafe extern "C" fn second_sizes(
    record: *const u8,
    record_len: usize,
    work: *mut u64,
    table: *mut u64,
    map: *mut u64,
) -> u32 {
    let told = gmwb::sizes(lent(record, record_len));
    *work = told.work;
    *table = told.table;
    *map = told.map;
    told.number as u32
}

#[no_mangle]
unsafe extern "C" fn second_book(
    record: *const u8,
    record_len: usize,
    date: u64,
    account: u64,
    guarantee: u64,
    amount: u64,
    out: *mut u8,
    out_len: usize,
) -> u32 {
    let record = lent(record, record_len);
    let out = lent_mut(out, out_len);
    gmwb::book(record, date, account, guarantee, amount, out).number as u32
}

#[no_mangle]
unsafe extern "C" fn second_value(
    record: *const u8,
    record_len: usize,
    list: *const u8,
    list_len: usize,
    rates: *const u8,
    rates_len: usize,
    behaviour: u64,
    work: *mut u64,
    work_len: usize,
    table: *mut u16,
    table_len: usize,
    place: *mut u64,
    value: *mut u64,
    margin: *mut i64,
) -> u32 {
    let (record, list) = (lent(record, record_len), lent(list, list_len));
    let rates = lent(rates, rates_len);
    let (work, table) = (lent_mut(work, work_len), lent_mut(table, table_len));
    let told = gmwb::value(record, list, rates, behaviour, work, table);
    tell(told, place, value, margin)
}

#[no_mangle]
unsafe extern "C" fn second_value_no_table(
    record: *const u8,
    record_len: usize,
    list: *const u8,
    list_len: usize,
    rates: *const u8,
    rates_len: usize,
    behaviour: u64,
    work: *mut u64,
    work_len: usize,
    place: *mut u64,
    value: *mut u64,
    margin: *mut i64,
) -> u32 {
    let (record, list) = (lent(record, record_len), lent(list, list_len));
    let (rates, work) = (lent(rates, rates_len), lent_mut(work, work_len));
    let told = gmwb::value_no_table(record, list, rates, behaviour, work);
    tell(told, place, value, margin)
}

#[no_mangle]
unsafe extern "C" fn second_value_map(
    record: *const u8,
    record_len: usize,
    list: *const u8,
    list_len: usize,
    rates: *const u8,
    rates_len: usize,
    behaviour: u64,
    work: *mut u64,
    work_len: usize,
    table: *mut u16,
    table_len: usize,
    map: *mut u64,
    map_len: usize,
    place: *mut u64,
    value: *mut u64,
    margin: *mut i64,
    count: *mut u64,
) -> u32 {
    let (record, list) = (lent(record, record_len), lent(list, list_len));
    let rates = lent(rates, rates_len);
    let (work, table) = (lent_mut(work, work_len), lent_mut(table, table_len));
    let map = lent_mut(map, map_len);
    let told = gmwb::value_map(record, list, rates, behaviour, work, table, map);
    *count = told.count;
    tell(told.valued, place, value, margin)
}

#[no_mangle]
unsafe extern "C" fn second_fee(
    record: *const u8,
    record_len: usize,
    list: *const u8,
    list_len: usize,
    rates: *const u8,
    rates_len: usize,
    behaviour: u64,
    wanted: u64,
    work: *mut u64,
    work_len: usize,
    place: *mut u64,
    fee: *mut u64,
    value: *mut u64,
    margin: *mut i64,
) -> u32 {
    let (record, list) = (lent(record, record_len), lent(list, list_len));
    let (rates, work) = (lent(rates, rates_len), lent_mut(work, work_len));
    let told = gmwb::fee(record, list, rates, behaviour, wanted, work);
    *fee = told.fee;
    tell(told.valued, place, value, margin)
}

#[no_mangle]
unsafe extern "C" fn second_value_table(
    record: *const u8,
    record_len: usize,
    list: *const u8,
    list_len: usize,
    rates: *const u8,
    rates_len: usize,
    work: *mut u64,
    work_len: usize,
    table: *const u16,
    table_len: usize,
    place: *mut u64,
    value: *mut u64,
    margin: *mut i64,
) -> u32 {
    let (record, list) = (lent(record, record_len), lent(list, list_len));
    let rates = lent(rates, rates_len);
    let (work, table) = (lent_mut(work, work_len), lent(table, table_len));
    let told = gmwb::value_table(record, list, rates, work, table);
    tell(told, place, value, margin)
}

#[no_mangle]
unsafe extern "C" fn second_walk(
    record: *const u8,
    record_len: usize,
    list: *const u8,
    list_len: usize,
    table: *const u16,
    table_len: usize,
    path: *const u16,
    path_len: usize,
    cash: *mut u64,
    cash_len: usize,
    place: *mut u64,
) -> u32 {
    let (record, list) = (lent(record, record_len), lent(list, list_len));
    let (table, path) = (lent(table, table_len), lent(path, path_len));
    let told = gmwb::walk(record, list, table, path, lent_mut(cash, cash_len));
    *place = told.place;
    told.number as u32
}
