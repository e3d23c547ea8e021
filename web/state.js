// What the page shows.

/** What is open and what is known of it. */
export const now = {
    name: 'program.c',
    report: null,
    reportText: '',
    pairs: [],
    found: '',
    // Whether the report is of what is asked now, and whether a program has come in place of another one.
    fresh: false,
    begins: true,
    point: 0,
    across: null,
    up: null,
    closed: true,
    mark: null,
};

/** The domain that is chosen. */
export const domain = () => document.querySelector('input[name=domain]:checked').value;
