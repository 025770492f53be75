// Which versions of the library this module can call.

package guard

import "strings"

// isCompatible says whether this module can call a library of a version, such as `0.2.1`: its first two numbers are the module's.
func isCompatible(version string) bool {
	return firstTwoNumbers(version) == firstTwoNumbers(Version)
}

// firstTwoNumbers returns `0.2` of `0.2.0`. A version has three numbers. Of a text with fewer, as another library may have, it returns all but the
// last.
func firstTwoNumbers(version string) string {
	numbers := strings.SplitN(version, ".", 3)
	// (not [:2], which would panic where there is one number alone)
	return strings.Join(numbers[:len(numbers)-1], ".")
}
