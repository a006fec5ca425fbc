//! How long the library takes.

mod arrivals;
mod boards;
mod changes;
mod measures;
mod passbook;
mod signed;
mod two_results;

fn main() {
    measures::print();
    arrivals::print();
    boards::print();
    changes::print();
    two_results::print();
    passbook::print();
    signed::print();
}
