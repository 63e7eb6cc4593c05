import { derived, writable } from 'svelte/store';

export const cart = writable([]);
export const rate = writable(20);

export const goods = derived(cart, lines => lines.reduce((sum, line) => sum + line.price, 0));
export const tax = derived([goods, rate], values => Math.floor(values[0] * values[1] / 100));
export const total = derived([goods, tax], values => values[0] + values[1]);
