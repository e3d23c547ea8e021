// Exact fractions: whole numbers of any size above and below. Pixels alone are floats.

function commonDivisor(left, right) {
    let [a, b] = [left < 0n ? -left : left, right < 0n ? -right : right];
    while (b !== 0n) [a, b] = [b, a % b];
    return a;
}

/** A fraction in lowest terms, with a denominator above 0. */
export class Fraction {
    constructor(numerator, denominator = 1n) {
        if (denominator === 0n) throw new RangeError('a fraction over 0');
        const divisor = commonDivisor(numerator, denominator);
        const sign = denominator < 0n ? -1n : 1n;
        this.numerator = (sign * numerator) / divisor;
        this.denominator = (sign * denominator) / divisor;
        Object.freeze(this);
    }

    /** The fraction that a text such as `-13/3` or `10` spells; `null` where it spells none. */
    static read(text) {
        const found = /^(-?\d+)(?:\/(\d+))?$/.exec(text);
        if (!found || /^0+$/.test(found[2] ?? '1')) return null;
        return new Fraction(BigInt(found[1]), BigInt(found[2] ?? 1));
    }

    plus(other) {
        return new Fraction(
            this.numerator * other.denominator + other.numerator * this.denominator,
            this.denominator * other.denominator,
        );
    }

    minus(other) {
        return this.plus(other.opposite());
    }

    times(other) {
        return new Fraction(this.numerator * other.numerator, this.denominator * other.denominator);
    }

    over(other) {
        return new Fraction(this.numerator * other.denominator, this.denominator * other.numerator);
    }

    opposite() {
        return new Fraction(-this.numerator, this.denominator);
    }

    /** -1, 0 or 1 as this one is below, equal to or above the other one. */
    compare(other) {
        const difference = this.numerator * other.denominator - other.numerator * this.denominator;
        return difference < 0n ? -1 : difference > 0n ? 1 : 0;
    }

    equals(other) {
        return this.numerator === other.numerator && this.denominator === other.denominator;
    }

    /** The nearest float, for pixels. */
    toNumber() {
        const whole = this.numerator / this.denominator;
        const rest = this.numerator % this.denominator;
        return Number(whole) + Number(rest) / Number(this.denominator);
    }

    /** As reports spell it, but with a true minus sign. */
    toString() {
        const sign = this.numerator < 0n ? '\u2212' : '';
        const size = this.numerator < 0n ? -this.numerator : this.numerator;
        return this.denominator === 1n ? `${sign}${size}` : `${sign}${size}/${this.denominator}`;
    }
}

export const ZERO = new Fraction(0n);
export const ONE = new Fraction(1n);

/** The lesser and the greater of two fractions. */
export const lesser = (a, b) => (a.compare(b) <= 0 ? a : b);
export const greater = (a, b) => (a.compare(b) >= 0 ? a : b);
