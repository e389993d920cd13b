// Behind index.js in a worker: an index of its own that only drafts. At 4,096 head 32 radii take half a second, in
// which the page must not stand still; a load takes some milliseconds.

let starting;

onmessage = async ({ data: { module, image, radii } }) => {
  starting ??= Index.start(module);
  const index = await starting;
  index.load(image);
  postMessage(index.lots(radii));
};
