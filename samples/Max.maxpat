{
"patcher": {

}
}
