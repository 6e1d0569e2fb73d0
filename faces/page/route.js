// The locations of the page, in the address bar: `sections/5`, `symbols/6/12` (symbol 12 of section 6), `offset/0x20`.

let show = () => {};

export const current_place = () => location.hash.slice(1);

export function on_place(shows) {
    show = shows;
    addEventListener('popstate', () => show(current_place()));
}

/** Goes to a location. The previous one stays in the history, unless it is to be replaced. */
export function go(place, is_replaced = false) {
    note_place(place, is_replaced);
    return show(place, is_replaced);
}

/** Writes a location that is already shown into the address bar. */
export function note_place(place, is_replaced = false) {
    if (place === current_place()) return;
    try {
        history[is_replaced ? 'replaceState' : 'pushState']({}, '',
            place ? `#${place}` : location.pathname + location.search);
    } catch {} // (a browser takes only some locations in a time, as while a key is held)
}
