/* The errors of calls on files, by the numbers and in the words that Linux has for them, whatever the system is. */

export const ERRORS: Readonly<Record<string, readonly [number, string]>> = {
  EPERM: [1, "Operation not permitted"], ENOENT: [2, "No such file or directory"], EINTR: [4, "Interrupted system call"],
  EIO: [5, "Input/output error"], ENXIO: [6, "No such device or address"], EBADF: [9, "Bad file descriptor"],
  EAGAIN: [11, "Resource temporarily unavailable"], ENOMEM: [12, "Cannot allocate memory"], EACCES: [13, "Permission denied"],
  EBUSY: [16, "Device or resource busy"], EEXIST: [17, "File exists"], ENODEV: [19, "No such device"],
  ENOTDIR: [20, "Not a directory"], EISDIR: [21, "Is a directory"], EINVAL: [22, "Invalid argument"],
  ENFILE: [23, "Too many open files in system"], EMFILE: [24, "Too many open files"],
  ENOTTY: [25, "Inappropriate ioctl for device"], ETXTBSY: [26, "Text file busy"], EFBIG: [27, "File too large"],
  ENOSPC: [28, "No space left on device"], ESPIPE: [29, "Illegal seek"], EROFS: [30, "Read-only file system"],
  EPIPE: [32, "Broken pipe"], ENAMETOOLONG: [36, "File name too long"], ENOSYS: [38, "Function not implemented"],
  ELOOP: [40, "Too many levels of symbolic links"], EOVERFLOW: [75, "Value too large for defined data type"],
  ENOTSUP: [95, "Operation not supported"], ECONNRESET: [104, "Connection reset by peer"],
  ENOTCONN: [107, "Transport endpoint is not connected"], ETIMEDOUT: [110, "Connection timed out"],
  EHOSTDOWN: [112, "Host is down"], EHOSTUNREACH: [113, "No route to host"], ESTALE: [116, "Stale file handle"],
};
const [OTHER, OTHER_TEXT] = ERRORS.EIO;

export const { EBADF: [EBADF], EINVAL: [EINVAL] } = ERRORS;

/** The number of a failure of Node's calls on files. Nothing else is taken for one. */
export function numberOf(error: unknown): number {
  const { code, syscall } = error as { code?: string; syscall?: string };
  if (code === undefined || syscall === undefined) throw error;
  return Object.hasOwn(ERRORS, code) ? ERRORS[code][0] : OTHER;
}

export function textOf(error: number): string {
  const found = Object.values(ERRORS).find(([number]) => number === error);
  return found ? found[1] : OTHER_TEXT;
}
