// Parts of the page that its other modules find, make and hand out.

export const at = (id) => document.getElementById(id);

/** An element with classes and a text. */
export function element(tag, classes, content) {
    const made = document.createElement(tag);
    if (classes) made.className = classes;
    if (content !== undefined) made.textContent = content;
    return made;
}

/** A number with its word, such as `3 bounds`. */
export const counted = (count, word) => `${count.toLocaleString('en-US').replaceAll(',', '\u202f')} ${word}${count === 1 ? '' : 's'}`;

/** Hands a file to the person. */
export function save(name, content, type = 'text/plain') {
    const link = element('a');
    link.href = URL.createObjectURL(new Blob([content], { type }));
    link.download = name;
    link.click();
    setTimeout(() => URL.revokeObjectURL(link.href), 10000);
}

/** Lets a button say something for a moment. */
export function flash(button, words) {
    const before = button.dataset.words ?? button.textContent;
    button.dataset.words = before;
    button.textContent = words;
    setTimeout(() => (button.textContent = before), 1600);
}
