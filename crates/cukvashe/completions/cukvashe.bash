# Completion for bash, made by docs/reference/make.
_cukvashe() {
  local words='' command=${COMP_WORDS[1]} place=$((COMP_CWORD - 1))
  case $command in
    pin | pvv | offset | emv | key-block) command+=" ${COMP_WORDS[2]}" place=$((place - 1)) ;;
  esac
  case "$COMP_CWORD:$command" in
    1:*) words='encrypt decrypt decrypt-pem decrypt-lines mac check-value parity weak combine dukpt cvv pin pvv offset emv key-block' ;;
    2:'pin '*) words='encode decode translate' ;;
    2:'pvv '*) words='make verify' ;;
    2:'offset '*) words='make verify natural' ;;
    2:'emv '*) words='card-key session-key cryptogram response-1 response-2' ;;
    2:'key-block '*) words='header unwrap wrap' ;;
    *)
      case "$command:$place:$3" in
        'encrypt:1:'* | 'decrypt:1:'*)
          words='des-ecb des-cbc des-cfb des-cfb8 des-ofb des-ctr des-ede-ecb des-ede-cbc des-ede-cfb des-ede-cfb8 des-ede-ofb des-ede-ctr
          des-ede3-ecb des-ede3-cbc des-ede3-cfb des-ede3-cfb8 des-ede3-ofb des-ede3-ctr'
          ;;
        'mac:1:'*) words='cbc-mac retail cmac' ;;
        'dukpt:2:'*) words='pin mac data data-variant' ;;
        'pin encode:1:'* | 'pin decode:1:'*) words='0 1 2 3' ;;
        'pin translate:1:'* | 'pin translate:2:'*) words='0 1 3' ;;
        'encrypt:'*':--iv') words='random' ;;
        'decrypt:'*':--iv') words='first-block' ;;
        'encrypt:'*':--padding' | 'decrypt:'*':--padding') words='pkcs7 iso7816 zeros none' ;;
        'mac:'*':--padding') words='1 2' ;;
        *':--weak-keys') words='refuse warn accept' ;;
        *':--form') words='pem der' ;;
        'mac:'*':--length') words='4 5 6 7 8' ;;
        'offset natural:'*':--length') words='4 5 6 7 8 9 10 11 12' ;;
        *':--bytes') words='2 3' ;;
        *':--check-digit') words='warn refuse' ;;
        *':--index') words='1 2 3 4 5 6' ;;
        *':--option') words='a b' ;;
        *':--show') words='fields key' ;;
        *':--version') words='B C' ;;
        *':--any-count' | *':--any-table' | *':--base64' | *':--hex' | *':--initial-key' | *':--keep-going' | *':--no-salt' | *':--progress' | *':--response' | *:*:[!-]*)
          case $command in
            encrypt)
              words='--iv --padding --weak-keys --in --out --hex --progress --key-file --key-fd --key-env --password-file --password-fd
              --password-env --derive --any-count'
              ;;
            decrypt)
              words='--iv --padding --weak-keys --from --blocks --in --out --hex --progress --key-file --key-fd --key-env --password-file
              --password-fd --password-env --derive --any-count --no-salt --base64'
              ;;
            decrypt-pem) words='--form --any-count --in --out --password-file --password-fd --password-env' ;;
            decrypt-lines)
              words='--iv --algorithm --iterations --base64 --hex --keep-going --in --out --progress --des-key-file --key-file --key-fd
              --key-env --password-file --password-fd --password-env'
              ;;
            mac) words='--padding --in --length --verify --hex --key-file --key-fd --key-env' ;;
            check-value) words='--bytes --key-file --key-fd --key-env' ;;
            parity) words='--key-file --key-fd --key-env' ;;
            weak) words='--key-file --key-fd --key-env' ;;
            combine) words='--part-file --count --key-file --key-fd --key-env' ;;
            dukpt) words='--response --initial-key --key-file --key-fd --key-env' ;;
            cvv) words='--expiry --service --account --account-file --check-digit --key-file --key-fd --key-env' ;;
            'pin encode') words='--pin-file --fill --account --account-file --check-digit' ;;
            'pin decode') words='--block-file --account --account-file --check-digit' ;;
            'pin translate')
              words='--block-file --fill --account --account-file --check-digit --key-file --key-fd --key-env --to-key-file --to-key-fd
              --to-key-env'
              ;;
            'pvv make') words='--index --pin-file --account --account-file --check-digit --key-file --key-fd --key-env' ;;
            'pvv verify') words='--index --value --pin-file --account --account-file --check-digit --key-file --key-fd --key-env' ;;
            'offset make') words='--validation --table --any-table --pin-file --key-file --key-fd --key-env' ;;
            'offset verify') words='--offset --validation --table --any-table --pin-file --key-file --key-fd --key-env' ;;
            'offset natural') words='--validation --table --any-table --length --key-file --key-fd --key-env' ;;
            'emv card-key') words='--sequence --option --account --account-file --check-digit --key-file --key-fd --key-env' ;;
            'emv session-key') words='--counter --cryptogram --key-file --key-fd --key-env' ;;
            'emv cryptogram') words='--data-file --key-file --key-fd --key-env' ;;
            'emv response-1') words='--cryptogram --code --key-file --key-fd --key-env' ;;
            'emv response-2') words='--cryptogram --status --data --key-file --key-fd --key-env' ;;
            'key-block header') words='--block-file' ;;
            'key-block unwrap') words='--block-file --show --protection-key-file --protection-key-fd --protection-key-env' ;;
            'key-block wrap')
              words='--version --usage --algorithm --mode --key-version --exportability --optional --key-file --key-fd --key-env
              --protection-key-file --protection-key-fd --protection-key-env'
              ;;
          esac
          ;;
      esac
      ;;
  esac
  mapfile -t COMPREPLY < <(compgen -W "$words" -- "$2")
}
complete -o default -F _cukvashe cukvashe
