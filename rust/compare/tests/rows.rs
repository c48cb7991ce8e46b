//! Documents 01 and 02, row by row, through the library and through the second program. What is
//! expected is written down from them by hand, so that a reader can hold each row against its
//! sentence; neither program has a part in it.

mod rows {
    mod days;
    mod deliveries;
    mod lent_words;
    mod parts;
    mod records;
    mod rehearsals;
    mod run_grounds;
    mod runs;
    mod sheet_grounds;
    mod sheets;
    mod site_grounds;
    mod starred;
    mod steps;
    mod words;
}
