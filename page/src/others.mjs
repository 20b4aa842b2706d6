// Other tabs with the same book: each is told of the others, so that one does not save over what the other has saved.

/** Tells the other tabs which book is open here, and calls back with whether one of them has it too. */
export class OtherTabs {
    #me = Math.random().toString(36).slice(2);
    #book = '';
    #also = new Map();
    #channel = null;

    constructor(changed) {
        this.changed = changed;
        if (typeof BroadcastChannel === 'function') {
            this.#channel = new BroadcastChannel('winnathey');
            this.#channel.onmessage = event => this.#heard(event.data);
        }
        addEventListener('pagehide', () => this.#say('closed'));
    }

    #say(type) {
        this.#channel?.postMessage({ type, from: this.#me, book: this.#book });
    }

    /** The book that is open here now; '' for one that nobody else can have. */
    open(book) {
        if (book === this.#book) return;
        this.#book = book;
        this.#say('open');
        this.#tell();
    }

    #heard({ type, from, book }) {
        if (type === 'closed') this.#also.delete(from);
        else this.#also.set(from, book);
        if (type === 'open') this.#say('here');
        this.#tell();
    }

    #tell() {
        this.changed(this.#book !== '' && [...this.#also.values()].includes(this.#book));
    }
}
