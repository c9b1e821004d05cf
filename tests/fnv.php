<?php
// FNV-1 by PHP's own hash extension, which is not ours.
//   php fnv.php names SEED COUNT   COUNT names of each size from 1 to 32, a line each: the name in hexadecimal, its hash
//   php fnv.php again < LINES      the same names, hashed anew
function show(string $name): void
{
    echo bin2hex($name), ' ', hash('fnv132', $name), "\n";
}

// Text, zeros before one byte, high bytes, noise; never all zeros.
function name(int $size, int $style): string
{
    if ($style === 0) {
        return substr(str_repeat('chongo was here!', 2), 0, $size);
    }
    if ($style === 1) {
        return str_repeat("\0", $size - 1) . "\x80";
    }
    if ($style === 2) {
        return str_repeat("\xff", $size);
    }
    $name = chr(mt_rand(1, 255));
    while (strlen($name) < $size) {
        $name .= chr(mt_rand(0, 255));
    }
    return $name;
}

if ($argc === 4 && $argv[1] === 'names') {
    mt_srand((int) $argv[2]);
    for ($size = 1; $size <= 32; $size++) {
        for ($style = 0; $style < (int) $argv[3]; $style++) {
            show(name($size, $style));
        }
    }
} elseif ($argc === 2 && $argv[1] === 'again') {
    while (($line = fgets(STDIN)) !== false) {
        show(hex2bin(strtok(rtrim($line), ' ')));
    }
} else {
    fwrite(STDERR, "usage: php fnv.php names SEED COUNT | again\n");
    exit(2);
}
