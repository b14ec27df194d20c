/* Takes the files of what was dropped or chosen, with those in its folders. */

import type { Found } from "../files/pieces.js";

/** A file or a folder by its handle, which TypeScript's library of browsers doesn't know. */
type Handle =
  | { readonly kind: "file"; readonly name: string; getFile(): Promise<File> }
  | { readonly kind: "directory"; readonly name: string; values(): AsyncIterable<Handle> };

interface Dropped extends DataTransferItem {
  getAsFileSystemHandle?(): Promise<Handle>;
}

/** All entries of a folder. A reader answers some at a time. */
async function entriesOf(folder: FileSystemDirectoryEntry): Promise<FileSystemEntry[]> {
  const reader = folder.createReader();
  const all: FileSystemEntry[] = [];
  for (;;) {
    const some = await new Promise<FileSystemEntry[]>((resolve, reject) => reader.readEntries(resolve, reject));
    if (some.length === 0) return all;
    all.push(...some);
  }
}

async function filesOf(entry: FileSystemEntry, folder: string): Promise<Found[]> {
  if (entry.isFile) {
    const lying = entry as FileSystemFileEntry;
    const file = await new Promise<File>((resolve, reject) => lying.file(resolve, reject));
    return [{ file, folder }];
  }
  const inside = await entriesOf(entry as FileSystemDirectoryEntry);
  const found = await Promise.all(inside.map(each => filesOf(each, `${folder}${entry.name}/`)));
  return found.flat();
}

/**
 * The files of a folder by its handle, which Chromium has. There a page that lies on a disk can't read by entries.
 */
async function filesByHandle(handle: Handle, folder: string): Promise<Found[]> {
  if (handle.kind === "file") return [{ file: await handle.getFile(), folder }];
  const found: Found[] = [];
  for await (const inner of handle.values()) found.push(...await filesByHandle(inner, `${folder}${handle.name}/`));
  return found;
}

/** What was dropped. All is asked of it before this first waits, since it is gone then. */
export async function droppedFiles(dropped: DataTransfer): Promise<Found[]> {
  const items: Dropped[] = [...dropped.items].filter(item => item.kind === "file");
  const found = items.map(async item => {
    const entry = item.webkitGetAsEntry?.(), file = item.getAsFile();
    if (!entry?.isDirectory) return file ? [{ file, folder: "" }] : [];
    const handle = item.getAsFileSystemHandle?.();
    return handle ? filesByHandle(await handle, "") : filesOf(entry, "");
  });
  return (await Promise.all(found)).flat();
}

/** What was chosen, files or a folder. */
export const chosenFiles = (chosen: FileList | null): Found[] =>
  [...chosen ?? []].map(file => ({ file, folder: file.webkitRelativePath.replace(/[^/]*$/, "") }));
