"""Tests of what a release removes of earlier ones: python3 -m unittest discover -s gate"""
import os
import subprocess
import tempfile
import unittest

EARLIER = os.path.join(os.path.dirname(os.path.dirname(os.path.abspath(__file__))), "release", "earlier.sh")
ENDS = ("-linux-x86_64.tar.gz", "-coq.tar.gz", "-certificates.tar.xz", ".crate", "-py3-none-manylinux_2_34_x86_64.whl")
PACKAGES = (
    "minorder_{}_amd64.deb", "libminorder1_{}_amd64.deb", "libminorder-dev_{}_amd64.deb", "python3-minorder_{}_all.deb")
OTHERS = (
    "minorder-1.0.0.tar.gz", "minorder-mine-coq.tar.gz", "my-minorder-1.0.0.crate", "minorder-1.0.0.crate.asc",
    "notes", ".notes.1", "minorder-1.0.0-py3-none-any.whl", "minorder_1.0.0_arm64.deb", "SHA256SUMS.asc")


class Earlier(unittest.TestCase):
    def test_only_files_of_releases_are_removed(self) -> None:
        with tempfile.TemporaryDirectory() as folder:
            made = [name for version in ("1.0.0", "0.9.12") for name in (
                *(f"minorder-{version}{end}" for end in ENDS), *(package.format(version) for package in PACKAGES))]
            for name in (*made, "SHA256SUMS", ".SHA256SUMS.4711", f".{made[0]}.12", *OTHERS):
                with open(os.path.join(folder, name), "w"):
                    pass
            os.mkdir(os.path.join(folder, "minorder-2.0.0.crate"))
            with open(os.path.join(folder, "minorder-2.0.0.crate", made[0]), "w"):
                pass
            os.symlink(os.path.join(folder, "notes"), os.path.join(folder, "minorder_2.0.0_amd64.deb"))
            subprocess.run([EARLIER, folder], check=True)
            left = {*OTHERS, "minorder-2.0.0.crate", "minorder_2.0.0_amd64.deb"}
            self.assertEqual(set(os.listdir(folder)), left)
            self.assertEqual(os.listdir(os.path.join(folder, "minorder-2.0.0.crate")), [made[0]])


if __name__ == "__main__":
    unittest.main()
