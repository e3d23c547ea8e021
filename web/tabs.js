// Tabs, by pointer and by keys, and the colours of the page.
import { at } from './parts.js';

const tabs = [...document.querySelectorAll('[role=tab]')];

/** Shows the panel of a tab. */
export function chooseTab(tab) {
    for (const one of tabs) {
        const isIt = one === tab;
        one.setAttribute('aria-selected', isIt);
        one.tabIndex = isIt ? 0 : -1;
        at(one.getAttribute('aria-controls')).hidden = !isIt;
    }
}

function moveTab(event) {
    const here = tabs.indexOf(event.target);
    const to = { ArrowRight: here + 1, ArrowLeft: here - 1, Home: 0, End: tabs.length - 1 }[event.key];
    if (to === undefined) return;
    event.preventDefault();
    const tab = tabs[(to + tabs.length) % tabs.length];
    tab.focus();
    tab.click();
}

const THEMES = [
    ['', '\u25d0', 'as the system has them'],
    ['light', '\u2600', 'light'],
    ['dark', '\u263e', 'dark'],
];

function setTheme(name) {
    const found = THEMES.find(([theme]) => theme === name) ?? THEMES[0];
    document.documentElement.dataset.theme = found[0];
    at('theme').firstElementChild.textContent = found[1];
    at('theme').setAttribute('aria-label', `Colours: ${found[2]}`);
    at('theme').title = `Colours: ${found[2]}`;
}

function nextTheme() {
    const here = THEMES.findIndex(([theme]) => theme === (document.documentElement.dataset.theme ?? ''));
    const name = THEMES[(here + 1) % THEMES.length][0];
    setTheme(name);
    try {
        localStorage.setItem('tmpl-theme', name);
    } catch {
        // Some browsers keep nothing for pages from files.
    }
}

function keptTheme() {
    try {
        return localStorage.getItem('tmpl-theme');
    } catch {
        return null;
    }
}

/** Begins with the colours that were chosen before; `chosen` hears of a tab that is chosen. */
export function connectTabs(chosen) {
    setTheme(keptTheme() ?? '');
    at('theme').addEventListener('click', nextTheme);
    for (const tab of tabs) {
        tab.addEventListener('click', () => {
            chooseTab(tab);
            chosen(tab);
        });
        tab.addEventListener('keydown', moveTab);
    }
}
