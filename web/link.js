// A link that holds a program and its settings: the part behind `#` is what it says as JSON, packed and written in letters.

async function through(bytes, stream) {
    return new Uint8Array(await new Response(new Blob([bytes]).stream().pipeThrough(stream)).arrayBuffer());
}

function letters(bytes) {
    let text = '';
    for (const byte of bytes) text += String.fromCharCode(byte);
    return btoa(text).replaceAll('+', '-').replaceAll('/', '_').replace(/=+$/, '');
}

/** The bytes that letters of base 64 spell, also in their form for addresses. */
export function bytesOf(text) {
    return Uint8Array.from(atob(text.replaceAll('-', '+').replaceAll('_', '/')), (sign) => sign.charCodeAt(0));
}

export const unpacked = (bytes) => through(bytes, new DecompressionStream('deflate-raw'));

/** What stands behind `#` for a value. */
export async function written(value) {
    const bytes = new TextEncoder().encode(JSON.stringify(value));
    return `p=${letters(await through(bytes, new CompressionStream('deflate-raw')))}`;
}

/** The value that stands behind `#`; null where none does. */
export async function read(hash) {
    const found = /^#?p=([\w-]+)$/.exec(hash);
    if (!found) return null;
    try {
        return JSON.parse(new TextDecoder().decode(await unpacked(bytesOf(found[1]))));
    } catch {
        return null;
    }
}
