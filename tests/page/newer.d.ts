// What browsers have that the compiler's library does not know yet.

interface Array<T> {
  findLastIndex(fits: (it: T) => boolean): number;
}
interface Element {
  checkVisibility(): boolean;
}
interface Navigator {
  readonly userActivation?: { readonly hasBeenActive: boolean };
}
